"""A move over the columns of a script: what was asked behind each, as facts."""
from __future__ import annotations

from collections.abc import Mapping, Sequence
from dataclasses import dataclass

from mt_picture.asking import Looked, Read, look, served, streams_behind
from mt_picture.clients import queries_of
from mt_picture.columns import refusal_name
from mt_picture.facts import DriveFacts, MoveFacts, Query, Served, State, StreamFacts, WayBack
from mt_picture.moves import Begun
from mt_picture.script import Script, words_of
from mt_picture.ways import DRIVES, Trial, drive_facts, step_names, try_back, way_facts
from mt_runs.plan import JOURNAL
from mt_runs.program import Program, is_refusal, is_refused
from mt_runs.show import Move
from mt_runs.topology import Part, Topology


@dataclass(frozen=True)
class Behind:
    """What was asked behind a column: what stands there; of each move that lives its streams and its way back; and the whole switch that the column is."""

    looked: Looked
    streams: Sequence[Sequence[StreamFacts]]
    trials: Sequence[Trial | None]
    drives: Sequence[DriveFacts | None]


@dataclass(frozen=True)
class Columns:
    """A script with what its lines are answered, the lines of each column by their places, and the moves that it begins."""

    program: Program
    script: Script
    answers: Sequence[str]
    places: Sequence[range]
    moves: Sequence[Begun]

    def behind(self, column: range) -> Behind:
        """Asks for all that a column shows. Raises `ProgramFailed`, as a run does."""
        before = self.script.lines[: column.stop]
        looked = look(self.program, before, self.moves)
        lives = list(zip(self.moves, looked.shown))
        streams = [streams_behind(self.program, before, shown) if shown else [] for _, shown in lives]
        trials = [try_back(self.program, before, move, shown) if shown else None for move, shown in lives]
        return Behind(looked, streams, trials, [self.drive(column, move) for move in self.moves])

    def drive(self, column: range, move: Begun) -> DriveFacts | None:
        """The switch or the reversal in one line that a column is of a move; None if it is none, or was refused as it began."""
        place = column.start
        line, answer = self.script.lines[place], self.answers[place]
        if not move.lives(place) or not is_drive(line, answer, move.workflow):
            return None
        return drive_facts(self.program, self.script.lines[:place], line, answer, move.shards)

    def queries(self, column: range, move: Begun) -> list[Query]:
        """The clients' lines of a column that ask for a move's tables."""
        lines = [(self.script.lines[place], is_refusal(self.answers[place])) for place in column if is_well_formed(self.answers[place])]
        return queries_of(lines, move, move.lives(column.stop - 1))


class History:
    """A move over the columns."""

    def __init__(self, columns: Columns, behind: Sequence[Behind], place: int) -> None:
        self.columns, self.behind = columns, behind
        self.place, self.move = place, columns.moves[place]
        self.shown = [it.looked.shown[place] for it in behind]

    def move_facts(self) -> MoveFacts:
        """The move itself."""
        move = self.move
        ended = None if move.ended is None else move.ended + 1
        names = step_names(self.directions())
        return MoveFacts(move.workflow, move.source, move.target, move.tables, move.shards, move.created + 1, ended, names, JOURNAL)

    def directions(self) -> set[str]:
        """The directions of the ways that are opened on it."""
        opened = {"back" if it.way.back else "forward" for it in self.shown if it and it.way}
        return opened | {drive.direction for it in self.behind if (drive := it.drives[self.place])}

    def state(self, column: int) -> State | None:
        """The move behind a column; None if it hasn't begun."""
        lines, behind, shown = self.columns.places[column], self.behind[column], self.shown[column]
        if not self.move.stands(lines.stop - 1):
            return None
        reads = behind.looked.reads[self.place]
        return State(
            live=shown is not None,
            switched=shown.switched if shown else [],
            way=way_facts(shown.way, self.move.shards) if shown and shown.way else None,
            drive=behind.drives[self.place],
            streams=behind.streams[self.place],
            by_name=served_tables(reads, behind.looked.topology, True),
            primaries=served_tables(reads, behind.looked.topology, False),
            way_back=self.way_back(column),
            queries=self.columns.queries(lines, self.move),
        )

    def way_back(self, column: int) -> WayBack | None:
        """The way back that was tried behind a column, beside the topology from before that to which it leads."""
        trial = self.behind[column].trials[self.place]
        if trial is None:
            return None
        first = self.first_column_of(column)
        same = first > 0 and trial.was_done and trial.part == self.part(first - 1)
        return WayBack(trial.lines, trial.answers, self.columns.places[first].start + 1 if same else None)

    def part(self, column: int) -> Part:
        """What the move has of the topology behind a column."""
        return self.behind[column].looked.topology.part_of(self.move.source, self.move.target, self.move.tables)

    def first_column_of(self, column: int) -> int:
        """The first column of what the way back from a column takes back: of the way that is open, of the switched traffic, or of the move."""
        behind = self.shown[column]
        while column > 0 and behind and self.takes_back(column - 1, behind):
            column -= 1
        return column

    def takes_back(self, column: int, behind: Move) -> bool:
        """Whether what the way back takes back from a move that stands so has begun by a column before."""
        shown = self.shown[column]
        if shown is None:
            return False
        if behind.way:
            return shown.way is not None
        return not behind.switched or shown.way is not None or bool(shown.switched)


def is_well_formed(answer: str) -> bool:
    """Whether a line that was answered so has the form of one: those that haven't are refused by other letters."""
    return (refusal_name(answer) or "F")[0] in "FT"


def is_drive(line: str, answer: str, workflow: str) -> bool:
    """Whether a line is a whole switch or reversal of a workflow that wasn't refused as it began."""
    words = words_of(line)
    return words[0] in DRIVES and words[1:2] == [workflow] and not is_refused(answer)


def served_tables(reads: Mapping[Read, str], topology: Topology, by_name: bool) -> Served:
    """Who serves each table by its name, by type and shard; or which primaries are open to it, by keyspace and shard."""
    found: dict[str, dict[str, dict[str, str]]] = {}
    for read, answer in reads.items():
        if read.by_name == by_name:
            outer, inner = (read.table, read.asked) if by_name else (read.asked, read.table)
            found.setdefault(outer, {}).setdefault(inner, {})[read.shard] = served(read, answer, topology)
    return found
