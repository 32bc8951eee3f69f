"""What queries meet: asked of `mt`, in a run of its own, by each name and for each tablet type.

A read says whether it is answered, and not where. So before it, in that run, a client writes by the table's bare name: if that is taken, the two sides hold
other rows, until a stream brings the write over, and a read by name has to give what one gives past the rules at the place to which the rules lead. If it
doesn't the rehearsal ends. While neither side takes writes, both may hold the same.
"""
from __future__ import annotations

from collections.abc import Iterator, Mapping, Sequence
from dataclasses import dataclass

from mt_rehearsal.moved import Moved
from mt_rehearsal.report import SERVED, Query, Reached
from mt_rehearsal.session import Session
from mt_runs.program import ProgramFailed, is_refused
from mt_runs.show import TYPES
from mt_runs.topology import Topology

DENIED = "refused F3 Denied"
NO_PLACE = "rules"  # a line in the place of a read where the rules lead to none; its answer is passed over


@dataclass(frozen=True)
class _Read:
    """A read by name, and the one past the rules that it has to agree with."""

    table: str
    name: str
    tablet_type: str
    shard: str
    key: int
    place: str | None

    def lines(self) -> tuple[str, str]:
        """The two lines that ask."""
        behind = f"@{self.tablet_type}"
        return f"get {self.name}{behind} {self.key}", f"at {self.place}{behind} get {self.key}" if self.place else NO_PLACE

    def reached(self, answer: str, at_place: str) -> Reached:
        """What the read met, by the answers to the two; raises `ProgramFailed` if they disagree."""
        wanted = at_place if self.place else answer if is_refused(answer) else "a refusal"
        if answer != wanted:
            where = f"{self.place or 'no place'}, to which its rules lead"
            raise ProgramFailed(f"mt answers `{answer}` to a read by {self.name}@{self.tablet_type}, and that of {where}, is `{wanted}`")
        return Reached(self.place, answer.partition(" ")[2] if is_refused(answer) else SERVED)


@dataclass(frozen=True)
class Seen:
    """What queries meet, and which shards of either side have a primary that refuses clients, each with the tables that it refuses, by keyspace."""

    queries: list[Query]
    refusing: dict[str, dict[str, tuple[str, ...]]]


def look(session: Session, move: Moved, topology: Topology, names: Mapping[str, Sequence[str]]) -> Seen:
    """Looks by these names of the moved tables, and past the rules at each shard. Raises `ProgramFailed` if a read by name isn't answered as one at the
    place to which the rules lead."""
    primaries = list(_primaries(move))
    reads = [read for table in move.tables for name in names[table] for read in _reads(move, topology, table, name)]
    writes = [f"update {table} {key} fresh" for table in move.tables for key in move.keys.values()]
    lines = [*(line for _, _, _, line in primaries), *writes, *(line for read in reads for line in read.lines())]
    answers = session.ask(lines)
    return Seen(_queries(move, reads, answers[len(primaries) + len(writes) :]), _refusing(primaries, answers))


def _queries(move: Moved, reads: Sequence[_Read], answers: Sequence[str]) -> list[Query]:
    """What reads met, of which each has two answers."""
    found: dict[tuple[str, str], dict[str, dict[str, Reached]]] = {}
    for read, answer, at_place in zip(reads, answers[::2], answers[1::2]):
        by_type = found.setdefault((read.table, read.name), {})
        by_type.setdefault(read.tablet_type, {})[move.shards[read.shard]] = read.reached(answer, at_place)
    return [Query(table, name, by_type) for (table, name), by_type in found.items()]


def _reads(move: Moved, topology: Topology, table: str, name: str) -> Iterator[_Read]:
    for tablet_type in TYPES:
        place = topology.led_to(name, tablet_type)
        yield from (_Read(table, name, tablet_type, shard, key, place) for shard, key in move.keys.items())


def _primaries(move: Moved) -> Iterator[tuple[str, str, str, str]]:
    """Each primary of either side with each table: the keyspace, the shard, the table, and the line that asks whether it takes clients."""
    first = next(iter(move.keys.values()))
    places = [(move.source, move.source_shard, first), *((move.target, move.shards[shard], key) for shard, key in move.keys.items())]
    for keyspace, shard, key in places:
        yield from ((keyspace, shard, table, f"at {keyspace}.{table} get {key}") for table in move.tables)


def _refusing(primaries: Sequence[tuple[str, str, str, str]], answers: Sequence[str]) -> dict[str, dict[str, tuple[str, ...]]]:
    found: dict[str, dict[str, tuple[str, ...]]] = {}
    for (keyspace, shard, table, _), answer in zip(primaries, answers):
        if answer == DENIED:
            shards = found.setdefault(keyspace, {})
            shards[shard] = (*shards.get(shard, ()), table)
    return found
