"""The entries of a log, and the texts in which they stand there.

An entry is a JSON object in one line of ASCII. The one at place 0 says whose log it is and which keyspaces are watched; each other has lines, in the
order in which every controller applies them:

    {"log":"mt","version":1,"watched":["commerce","customer"],"sum":"SHA-256"}
    {"place":1,"before":"SHA-256","answers":"SHA-256","by":"ID","lines":["keyspace commerce"],"sum":"SHA-256"}

`before` is the sum of the entry before it, as it stands in the log; `answers` that of what `mt run` writes for all lines before it; `by` is drawn anew for
each entry, so that who appends it knows it again; `sum` is that of the entry without it, up to the last line.
"""
from __future__ import annotations

import hashlib
import json
from collections.abc import Sequence
from dataclasses import dataclass
from typing import Any, NoReturn

from mt_runs.program import is_silent

VERSION = 1
MOST_BYTES = 1 << 18  # of an entry's lines as they are written: a fifth of what etcd takes


class WrongLog(Exception):
    """A log isn't as it must be, or isn't the one that was asked for; the text says what was found, and where. Nothing was written."""


@dataclass(frozen=True)
class Entry:
    """The lines of one place of a log, with what stands before them."""

    place: int
    before: str
    answers: str
    by: str
    lines: Sequence[str]

    def text(self) -> bytes:
        """The entry as it stands in a log."""
        return _summed(vars(self))


def head_text(watched: Sequence[str]) -> bytes:
    """The first entry of a log whose controllers watch these keyspaces."""
    return _summed({"log": "mt", "version": VERSION, "watched": list(watched)})


def sum_of(text: bytes) -> str:
    """The sum of an entry."""
    return hashlib.sha256(text).hexdigest()


def is_line(line: object) -> bool:
    """Whether an entry may have this line: a text without a line feed that is answered. Bytes that are no UTF-8 stand in it as Python's surrogates.

    A carriage return at its end is part of its end in a script, and so it is here.
    """
    if not isinstance(line, str) or "\n" in line or is_silent(line):
        return False
    try:
        line.encode("utf-8", "surrogateescape")
    except UnicodeEncodeError:
        return False
    return True


def written_size(line: str) -> int:
    """How many bytes of an entry a line takes."""
    return len(json.dumps(line)) + 1


def read_head(text: bytes) -> tuple[str, ...]:
    """The keyspaces that the first entry of a log has. Raises `WrongLog`: it isn't one, or one of another version."""
    head = _members(text, 0)
    if head.get("log") != "mt" or not isinstance(head.get("version"), int):
        _not_ours(0, text)
    if head["version"] != VERSION:
        raise WrongLog(f"the log is of version {head['version']}, and this controller's is {VERSION}")
    watched = head.get("watched")
    if not isinstance(watched, list) or not all(map(is_line, watched)):
        _not_ours(0, text)
    _compare(0, text, head_text(watched))
    return tuple(watched)


def read_entry(text: bytes, place: int) -> Entry:
    """The entry at a place behind the first. Raises `WrongLog`: it isn't one, or one of another place."""
    members = _members(text, place)
    members.pop("sum", None)
    lines = members.get("lines")
    if not isinstance(lines, list) or not lines or not all(map(is_line, lines)):
        _not_ours(place, text)
    try:
        entry = Entry(**members)
    except TypeError:
        _not_ours(place, text)
    if type(entry.place) is not int:
        _not_ours(place, text)
    _compare(place, text, entry.text())
    if entry.place != place:
        raise WrongLog(f"the entry at place {place} of the log was written for place {entry.place}")
    return entry


def _summed(members: dict[str, Any]) -> bytes:
    """An object of these members, with their sum behind them."""
    text = json.dumps(members, separators=(",", ":")).encode("ascii")
    return text[:-1] + f',"sum":"{sum_of(text)}"}}'.encode()


def _compare(place: int, text: bytes, written: bytes) -> None:
    """Raises `WrongLog` if an entry isn't as one with what it says is written."""
    if text != written:
        raise WrongLog(f"the entry at place {place} of the log isn't as it was written")


def _members(text: bytes, place: int) -> dict[str, Any]:
    """The members of an entry's object."""
    try:
        members = json.loads(text)
    except (ValueError, TypeError, RecursionError):
        _not_ours(place, text)
    if not isinstance(members, dict):
        _not_ours(place, text)
    return members


def _not_ours(place: int, text: bytes) -> NoReturn:
    raise WrongLog(f"the entry at place {place} of the log is none of a controller's: {ascii(text)[:60]}")
