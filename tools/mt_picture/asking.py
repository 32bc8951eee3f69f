"""What the program tells of the moves behind a line, in runs that are thrown away."""
from __future__ import annotations

import re
from collections.abc import Mapping, Sequence
from dataclasses import dataclass
from typing import NamedTuple

from mt_picture.facts import StreamFacts
from mt_picture.moves import Begun
from mt_runs.program import Answering, ProgramFailed, is_refusal
from mt_runs.shards import first_key
from mt_runs.show import TYPES, Move, parse_show, stream_word
from mt_runs.topology import Topology, parse_dump

MOST_AT_ONCE = 65535  # entries that an advance may read
OPEN = "open"
SOURCE_SHARD = "-"  # tables move out of a keyspace that has one shard
TURN = re.compile(r"events (\d+) rows (\d+)")


class Read(NamedTuple):
    """A read that tells who serves: of a table by its name, for a type (`asked` is the type), or of one at a primary (`asked` is the keyspace)."""

    by_name: bool
    asked: str
    table: str
    shard: str

    @property
    def line(self) -> str:
        key = first_key(self.shard)
        return f"get {self.table}@{self.asked} {key}" if self.by_name else f"at {self.asked}.{self.table} get {key}"


@dataclass(frozen=True)
class Looked:
    """What stands behind a line: the topology; what `show` says of each move, None if it doesn't live; and the answers to the reads of each that has begun."""

    topology: Topology
    shown: Sequence[Move | None]
    reads: Sequence[Mapping[Read, str]]


def reads_of(move: Begun) -> list[Read]:
    """The reads that tell who serves a move's tables: by each name for each type, and at each primary, with a key of each shard."""
    by_name = [Read(True, asked, table, shard) for table in move.tables for asked in TYPES for shard in move.shards]
    sides = [(move.source, SOURCE_SHARD), *((move.target, shard) for shard in move.shards)]
    return [*by_name, *(Read(False, side, table, shard) for table in move.tables for side, shard in sides)]


def look(program: Answering, before: Sequence[str], moves: Sequence[Begun]) -> Looked:
    """What stands behind some lines, in one run, as none of its questions changes anything. Raises `ProgramFailed`, as a run does."""
    place = len(before) - 1
    lives = [it.lives(place) for it in moves]
    reads = [reads_of(it) if it.stands(place) else [] for it in moves]
    shows = [f"show {it.workflow}" for it, live in zip(moves, lives) if live]
    answers = iter(program.ask(before, ["dump", *shows, *(read.line for part in reads for read in part)]))
    topology = parse_dump(next(answers))
    shown = [parse_show(next(answers)) if live else None for live in lives]
    return Looked(topology, shown, [{read: next(answers) for read in part} for part in reads])


def served(read: Read, answer: str, topology: Topology) -> str:
    """Who serves by a read: the table that the rules of `dump` lead to, or `open` of a primary; or the refusal, as it was answered."""
    if is_refusal(answer):
        return answer
    if not read.by_name:
        return OPEN
    led_to = topology.led_to(read.table, read.asked)
    if led_to is None:
        raise ProgramFailed(f"{read.line} was answered {answer}, and by the rules that dump tells it leads nowhere")
    return led_to


def streams_behind(program: Answering, before: Sequence[str], move: Move) -> list[StreamFacts]:
    """The streams of a move, in one run; of each that runs what one turn would read and copy. Raises `ProgramFailed`, as a run does.

    No turn of one stream of a move is seen by another that runs: those of one direction read one log, or each its own, and write in others; and streams of both
    directions never run at once.
    """
    streams = [("forward", it, stream) for it, stream in move.forward.items()] + [("back", it, stream) for it, stream in move.back.items()]
    turns = [f"advance {move.name} {stream_word(way, shard)} {stream.position} {MOST_AT_ONCE}" for way, shard, stream in streams if stream.is_running]
    answers = iter(program.ask(before, turns) if turns else [])
    facts = []
    for way, shard, stream in streams:
        behind, rows = turn_of(next(answers)) if stream.is_running else (None, None)
        facts.append(StreamFacts(way, shard, stream.state, stream.position, stream.copied, behind, rows))
    return facts


def turn_of(answer: str) -> tuple[int, int]:
    """How many entries a turn read, and how many rows it copied; `ProgramFailed` if an advance was answered otherwise."""
    found = TURN.fullmatch(answer)
    if not found:
        raise ProgramFailed(f"an advance of a stream that runs was answered {answer}")
    return int(found[1]), int(found[2])
