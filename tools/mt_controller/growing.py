"""The picture of a log's moves, which grows by a column each time that it is looked at. Copies of the core are asked, and no line is played again."""
from __future__ import annotations

from collections import deque
from collections.abc import Mapping, Sequence
from dataclasses import dataclass

from mt_controller.controller import Applied
from mt_controller.following import Followed, Present, followed_now
from mt_picture.asking import Looked, look, streams_behind
from mt_picture.clients import queries_of
from mt_picture.facts import Column, DriveFacts, Facts, Line, Served, State, StreamFacts, document_of_some
from mt_picture.gathering import refusals_of
from mt_picture.history import is_drive, is_well_formed, served_tables
from mt_picture.script import shown_text, words_of
from mt_picture.ways import Trial, drive_facts, try_back, way_facts
from mt_runs.program import is_refusal
from mt_runs.refusals import ScriptPage
from mt_runs.show import Move
from mt_runs.topology import Topology

MOST_COLUMNS = 40
MOST_LINES = 30  # of a column that are told
MOST_TEXT = 400  # letters of a line, or of an answer, that are told


@dataclass(frozen=True)
class Drawn:
    """A column: the numbers of its first and last line, those of its lines that are told, and the moves behind it by the numbers of their `create`."""

    first: int
    last: int
    lines: Sequence[Applied]
    states: Mapping[int, State]


@dataclass(frozen=True)
class Asked:
    """What was asked for a move: how it stands, its streams, its way back, and the whole switch that the column is."""

    shown: Move | None
    streams: Sequence[StreamFacts]
    trial: Trial | None
    drive: DriveFacts | None
    by_name: Served
    primaries: Served

    def directions(self) -> set[str]:
        """The directions of the ways that are opened."""
        opened = {"back" if self.shown.way.back else "forward"} if self.shown and self.shown.way else set()
        return opened | ({self.drive.direction} if self.drive else set())

    def state(self, move: Followed, lines: Sequence[Applied]) -> State:
        """The move behind these lines."""
        shown, shards = self.shown, move.begun.shards
        clients = [(it.line, is_refusal(it.answer)) for it in lines if is_well_formed(it.answer)]
        return State(
            live=shown is not None,
            switched=shown.switched if shown else [],
            way=way_facts(shown.way, shards) if shown and shown.way else None,
            drive=self.drive,
            streams=self.streams,
            by_name=self.by_name,
            primaries=self.primaries,
            way_back=move.way_back(shown, self.trial) if shown and self.trial else None,
            queries=queries_of(clients, move.begun, move.lives),
        )


class Growing:
    """The last columns of a log's picture, the first of which is the log as it was found."""

    def __init__(self, title: str, watched: Sequence[str], page: ScriptPage) -> None:
        self.title, self.watched, self.page = title, watched, page
        self.columns: deque[Drawn] = deque(maxlen=MOST_COLUMNS)
        self.moves: dict[int, Followed] = {}  # by the numbers of their `create`
        self.applied = 0
        self._gone: set[int] = set()  # such numbers of moves that have ended, and are drawn no more
        self._before: Present | None = None
        self._topology: Topology | None = None

    def grow(self, present: Present, lines: Sequence[Applied], creates: Sequence[Applied]) -> None:
        """Adds a column with what stands now behind the last lines. Raises `ProgramFailed`, and then nothing is added.

        `creates` are the last lines that created a workflow, by each name. `present` is kept until the next call, or `forget`.
        """
        known = {words_of(it.line)[1]: it for it in creates if it.number <= present.applied and it.number not in self._gone}
        moves = followed_now(present, self.moves, known, lines)
        looked = look(present, [], [it.begun for it in moves.values()])
        asked = [self._asked(present, lines, move, place, looked) for place, move in enumerate(moves.values())]
        column = range(self.applied + 1, present.applied + 1)
        behind = {number: move.behind(it.shown, column, self._topology, it.directions()) for (number, move), it in zip(moves.items(), asked)}
        states = {number: it.state(behind[number], lines) for number, it in zip(moves, asked)}
        self._gone |= {it.number for it in known.values()} - set(moves)
        self.moves = behind
        self._add(Drawn(column.start, present.applied, lines[-MOST_LINES:], states))
        self.forget()
        self._before, self._topology, self.applied = present, looked.topology, present.applied

    def forget(self) -> None:
        """Lets go of the copy that was asked last: of a whole switch that comes next the steps aren't told."""
        if self._before:
            self._before.close()
        self._before = None

    def _asked(self, present: Present, lines: Sequence[Applied], move: Followed, place: int, looked: Looked) -> Asked:
        """Asks for all that a column shows of a move."""
        shown, reads = looked.shown[place], looked.reads[place]
        drive = None
        if self._before and present.applied == self.applied + 1 and move.lives and is_drive(lines[0].line, lines[0].answer, move.begun.workflow):
            drive = drive_facts(self._before, [], lines[0].line, lines[0].answer, move.begun.shards)
        return Asked(
            shown=shown,
            streams=streams_behind(present, [], shown) if shown else [],
            trial=try_back(present, [], move.begun, shown) if shown else None,
            drive=drive,
            by_name=served_tables(reads, looked.topology, True),
            primaries=served_tables(reads, looked.topology, False),
        )

    def _add(self, column: Drawn) -> None:
        """Adds a column, in the place of the last one if neither has a move; moves that no column has alive are drawn no more."""
        if self.columns and not self.columns[-1].states and not column.states:
            last = self.columns.pop()
            column = Drawn(last.first, column.last, [*last.lines, *column.lines][-MOST_LINES:], {})
        if column.last >= column.first:
            self.columns.append(column)
        alive = {number for it in self.columns for number, state in it.states.items() if state.live}
        self._gone |= set(self.moves) - alive
        self.moves = {number: it for number, it in self.moves.items() if number in alive}

    def document(self) -> dict[str, object] | None:
        """The facts of the columns (docs/PICTURE.md); None if no move stands in any."""
        if not self.moves:
            return None
        lines = [it for column in self.columns for it in column.lines]
        facts = Facts(
            title=self.title,
            watchers=self.watched,
            lines=[Line(told_text(shown_text(it.line.removesuffix("\r"))), told_text(it.answer), None) for it in lines],
            refusals=refusals_of((it.answer for it in lines), self.page),
            moves=[it.facts() for it in self.moves.values()],
            columns=[Column(it.first, it.last, [it.states.get(number) for number in self.moves]) for it in self.columns],
        )
        return document_of_some(facts, [it.number for it in lines])


def told_text(text: str) -> str:
    """A text as it is told among others: its first letters, if it is long."""
    return text if len(text) <= MOST_TEXT else f"{text[:MOST_TEXT]}.."
