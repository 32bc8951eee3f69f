"""Which lines stand in one column."""
from __future__ import annotations

from collections.abc import Iterator, Sequence

from mt_picture.clients import is_client_line
from mt_picture.script import Script, words_of
from mt_runs.refusals import REFUSED

LONG = 90  # lines, from which on neighbours of a kind share a column
MOST_COLUMNS = 400


class CannotDraw(Exception):
    """There is no picture of this script; the text says why."""


def refusal_name(answer: str) -> str | None:
    """The name of the refusal that an answer tells, as `F3 Denied`."""
    found = REFUSED.match(answer)
    return found[1] if found else None


def folded(script: Script, answers: Sequence[str]) -> list[range]:
    """The places of the lines of each column.

    The lines in front of the first `create` are one. Behind it each line is one; but in a script of many lines neighbouring lines of clients, or turns of
    streams, that were all answered, or all refused alike, share one. Raises `CannotDraw` where these are too many.
    """
    starts = [*_starts(script, answers), len(script.lines)]
    if len(starts) - 1 > MOST_COLUMNS:
        raise CannotDraw(f"the script would have {len(starts) - 1:,} columns, and {MOST_COLUMNS} can be drawn")
    return [range(first, behind) for first, behind in zip(starts, starts[1:])]


def _starts(script: Script, answers: Sequence[str]) -> Iterator[int]:
    creates = [place for place, line in enumerate(script.lines) if words_of(line)[0] == "create"]
    first_create = creates[0] if creates else len(script.lines)
    if first_create:
        yield 0
    kinds = [(_shared_kind(line), refusal_name(answer)) for line, answer in zip(script.lines, answers)]
    for place in range(first_create, len(script.lines)):
        joins = len(script.lines) > LONG and place > first_create and kinds[place][0] and kinds[place] == kinds[place - 1]
        if not joins:
            yield place


def _shared_kind(line: str) -> str | None:
    """The kind of a line that neighbours of its kind may share a column with."""
    if is_client_line(line):
        return "client"
    return "turn" if words_of(line)[0] == "advance" else None
