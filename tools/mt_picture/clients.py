"""The lines by which clients ask for rows, and where in a move's lanes each of them stands."""
from __future__ import annotations

from collections import Counter
from collections.abc import Iterable
from dataclasses import dataclass

from mt_picture.facts import Query
from mt_picture.moves import Begun
from mt_picture.script import words_of
from mt_runs.shards import shard_of

WRITES = ("insert", "update", "append", "delete")
VERBS = (*WRITES, "get")
KEYS = 1 << 64


@dataclass(frozen=True)
class ClientLine:
    """A line for a row: whether it writes, the parts of its name, its key, and whether it passes the rules by (`at`)."""

    write: bool
    keyspace: str | None
    table: str
    type: str
    key: int
    past_rules: bool


def is_client_line(line: str) -> bool:
    """Whether a line asks for a row, by its first words."""
    words = words_of(line)
    return words[0] in VERBS or (words[0] == "at" and len(words) > 2 and words[2] in VERBS)


def read_client_line(line: str) -> ClientLine | None:
    """A line for a row that has the form of one; None for every other. Its names aren't tested."""
    words = words_of(line)
    past_rules = words[0] == "at" and len(words) > 2
    if past_rules:
        words = [words[2], words[1], *words[3:]]
    if words[0] not in VERBS or len(words) < 3 or not (words[2].isascii() and words[2].isdigit()) or int(words[2]) >= KEYS:
        return None
    name, _, tablet_type = words[1].partition("@")
    keyspace, dot, table = name.partition(".")
    return ClientLine(words[0] in WRITES, keyspace if dot else None, table if dot else name, tablet_type or "primary", int(words[2]), past_rules)


def queries_of(lines: Iterable[tuple[str, bool]], move: Begun, live: bool) -> list[Query]:
    """The lines of clients among some, each with whether it was refused, that ask for a move's tables; those that ask alike are counted together.

    Of one that has ended only the bare names of its tables are its own.
    """
    read = ((read_client_line(line), refused) for line, refused in lines)
    places = Counter(_place(line, move, refused) for line, refused in read if line and _asks_for(line, move, live))
    return [Query(*place, count) for place, count in places.items()]


def _asks_for(line: ClientLine, move: Begun, live: bool) -> bool:
    if line.table not in move.tables:
        return False
    if line.past_rules:
        return line.type == "primary" and line.keyspace in (move.source, move.target)
    return line.keyspace is None or (live and line.keyspace in (move.source, move.target))


def _place(line: ClientLine, move: Begun, refused: bool) -> tuple[str, str, str, str | None, bool, bool]:
    at_source = line.past_rules and line.keyspace == move.source
    shard = "-" if at_source else shard_of(move.shards, line.key)
    return line.table, line.type, shard, line.keyspace if line.past_rules else None, line.write, refused
