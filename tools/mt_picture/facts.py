"""The document of facts, as docs/PICTURE.md defines it: what the program answered behind each line of a script."""
from __future__ import annotations

import json
from collections.abc import Mapping, Sequence
from dataclasses import asdict, dataclass

VERSION = 1
UNSEEN = "unseen"
Served = Mapping[str, Mapping[str, Mapping[str, str]]]


@dataclass(frozen=True)
class Line:
    """A line with its answer, and the comment in front of it."""

    text: str
    answer: str
    note: str | None


@dataclass(frozen=True)
class MoveFacts:
    """A move that the script begins: `created` is the number of its line, `ended` that of the line that cancels or completes it.

    `steps` are the names of the twelve steps, of which `journal` is the one behind which there is no undo.
    """

    workflow: str
    source: str
    target: str
    tables: Sequence[str]
    shards: Sequence[str]
    created: int
    ended: int | None
    steps: Sequence[str]
    journal: int


@dataclass(frozen=True)
class WayFacts:
    """A switch or a reversal that is open: of `steps`, which are numbers of the twelve, the first `done` stand done."""

    direction: str
    types: Sequence[str]
    steps: Sequence[int]
    done: int
    undoing: bool


@dataclass(frozen=True)
class DriveFacts:
    """A switch or a reversal in one line: how many of its steps it took, and whether it then undid them."""

    direction: str
    types: Sequence[str]
    steps: Sequence[int]
    done: int
    undone: bool


@dataclass(frozen=True)
class StreamFacts:
    """A stream; of one that runs how many entries it would read, and how many rows it would copy if there are none."""

    direction: str
    shard: str
    state: str
    position: int
    copied: bool | None
    behind: int | None
    rows: int | None


@dataclass(frozen=True)
class WayBack:
    """The way back that was tried in a run of its own: its lines up to the first that was refused, with their answers.

    `as_before` is the number of the line before which the move had the same of the topology; None if it had another, or a line was refused; `UNSEEN` if no
    line was refused, and what it had before isn't known.
    """

    lines: Sequence[str]
    answers: Sequence[str]
    as_before: int | str | None


@dataclass(frozen=True)
class Query:
    """Clients' lines of a column that ask the same place in the same way; `at` is the keyspace that they ask past the rules."""

    table: str
    type: str
    shard: str
    at: str | None
    write: bool
    refused: bool
    count: int


@dataclass(frozen=True)
class State:
    """A move behind a column's last line."""

    live: bool
    switched: Sequence[str]
    way: WayFacts | None
    drive: DriveFacts | None
    streams: Sequence[StreamFacts]
    by_name: Served
    primaries: Served
    way_back: WayBack | None
    queries: Sequence[Query]


@dataclass(frozen=True)
class Column:
    """Lines that stand in one column, by the numbers of the first and the last, and each move behind the last; None is one that hasn't begun."""

    first: int
    last: int
    moves: Sequence[State | None]


@dataclass(frozen=True)
class Facts:
    """The whole document."""

    title: str
    watchers: Sequence[str]
    lines: Sequence[Line]
    refusals: Mapping[str, Mapping[str, str]]
    moves: Sequence[MoveFacts]
    columns: Sequence[Column]


def document_of_some(facts: Facts, numbers: Sequence[int]) -> dict[str, object]:
    """The document of a log of which only some lines are told: those of these numbers."""
    return {"version": VERSION, **asdict(facts), "numbers": numbers}


def document_text(facts: Facts) -> str:
    """The document as JSON, in one form: a line for each line of the script, each refusal, each move and each column."""
    parts = {"version": VERSION, **asdict(facts)}
    members = [f"{json.dumps(name)}: {_member(value)}" for name, value in parts.items()]
    return "{\n" + ",\n".join(members) + "\n}\n"


def _member(value: object) -> str:
    """A member, whose entries stand on lines of their own if they have parts themselves."""
    if isinstance(value, dict):
        return _block("{", [f"{json.dumps(name)}: {_compact(it)}" for name, it in value.items()], "}")
    if isinstance(value, (list, tuple)) and value and isinstance(value[0], dict):
        return _block("[", [_compact(it) for it in value], "]")
    return _compact(value)


def _block(head: str, entries: Sequence[str], end: str) -> str:
    return head + ",".join(f"\n  {entry}" for entry in entries) + ("\n" if entries else "") + end


def _compact(value: object) -> str:
    return json.dumps(value, ensure_ascii=False, separators=(",", ":"))
