"""The moves of a log that are drawn: which live, where each began, and how the copies of the core are asked for them."""
from __future__ import annotations

from collections.abc import Mapping, Sequence
from dataclasses import dataclass, field, replace

from mt_controller.controller import Applied
from mt_controller.core import Copy, CoreFailed
from mt_picture.facts import UNSEEN, MoveFacts, WayBack
from mt_picture.moves import Begun
from mt_picture.script import words_of
from mt_picture.ways import Trial, step_names
from mt_runs.plan import JOURNAL
from mt_runs.program import ProgramFailed, is_refused
from mt_runs.show import Move
from mt_runs.topology import Part, Topology, parse_dump

NOW = -1  # the place of the last line applied, behind which a copy stands
ENDS = ("cancel", "complete")


class Present:
    """A copy of the core, asked as runs of the program are. The lines that it stands behind aren't named again: without others `before` is empty."""

    def __init__(self, copy: Copy) -> None:
        self.applied = copy.applied
        self._copy = copy

    def ask(self, before: Sequence[str], more: Sequence[str]) -> list[str]:
        """The answers to the lines `more` behind the lines `before`. Nothing stays. Raises `ProgramFailed`."""
        try:
            return self._copy.ask([*before, *more])[len(before) :]
        except CoreFailed as why:
            raise ProgramFailed(str(why)) from why

    def close(self) -> None:
        self._copy.close()


@dataclass(frozen=True)
class Mark:
    """Where what a way back takes back began: the number of that column's first line, and what the move had of the topology before; None if that wasn't seen.

    It is known that it was so right before only if the column has one line.
    """

    number: int
    before: Part | None
    is_right_before: bool


@dataclass(frozen=True)
class Followed:
    """A move that is drawn: the numbers of the lines that made and ended it, the directions of its ways, and where what can be taken back began."""

    begun: Begun
    created: int
    ended: int | None = None
    directions: frozenset[str] = frozenset()
    marks: Mapping[str, Mark] = field(default_factory=dict)

    @property
    def lives(self) -> bool:
        return self.begun.lives(NOW)

    def at_its_end(self, lines: Sequence[Applied]) -> Followed:
        """The same once it has ended, by one of these lines if it is told."""
        if not self.lives:
            return self
        ends = [it.number for it in lines if it.answer == "ok" and words_of(it.line) in [[verb, self.begun.workflow] for verb in ENDS]]
        return replace(self, begun=replace(self.begun, ended=NOW), ended=next(iter(ends), None))

    def behind(self, shown: Move | None, column: range, before: Topology | None, ways: set[str]) -> Followed:
        """The same behind the lines of a column, before which the topology was this; with the directions of the ways that the column has."""
        stands = {"move": shown is not None, "switched": bool(shown and (shown.way or shown.switched)), "way": bool(shown and shown.way)}
        part = before.part_of(self.begun.source, self.begun.target, self.begun.tables) if before else None
        new = Mark(column.start, part, part is not None and len(column) == 1)
        marks = {name: self.marks.get(name, new) for name, does in stands.items() if does}
        return replace(self, directions=self.directions | ways, marks=marks)

    def way_back(self, shown: Move, trial: Trial) -> WayBack:
        """The way back that was tried, beside the topology from before that to which it leads."""
        mark = self.marks["way" if shown.way else "switched" if shown.switched else "move"]
        if trial.was_done and trial.part == mark.before:
            return WayBack(trial.lines, trial.answers, mark.number)
        return WayBack(trial.lines, trial.answers, UNSEEN if trial.was_done and not mark.is_right_before else None)

    def facts(self) -> MoveFacts:
        """The move itself."""
        it = self.begun
        return MoveFacts(it.workflow, it.source, it.target, it.tables, it.shards, self.created, self.ended, step_names(set(self.directions)), JOURNAL)


def followed_now(present: Present, moves: Mapping[int, Followed], creates: Mapping[str, Applied], lines: Sequence[Applied]) -> dict[int, Followed]:
    """The moves to be drawn, by the numbers of their `create`: those from before, some of which ended by the last lines, and those that live and are new.

    `creates` has by its name the last line that created a workflow, unless it is known to have ended. Raises `ProgramFailed`.
    """
    names = list(dict.fromkeys([*(it.begun.workflow for it in moves.values() if it.lives), *creates]))
    dump, *shows = present.ask([], ["dump", *(f"show {it}" for it in names)])
    topology = parse_dump(dump)
    # one of which only a later `create` is known is the same that lived before
    live = {creates[name].number if name in creates else _last_of(name, moves) for name, show in zip(names, shows) if not is_refused(show)}
    old = {number: it if number in live else it.at_its_end(lines) for number, it in moves.items()}
    new = {it.number: Followed(_begun(it, topology), it.number) for it in creates.values() if it.number in live - set(moves)}
    return {**old, **new}


def _last_of(workflow: str, moves: Mapping[int, Followed]) -> int:
    return max(number for number, it in moves.items() if it.begun.workflow == workflow)


def _begun(create: Applied, topology: Topology) -> Begun:
    _, workflow, source, target, tables = words_of(create.line)
    return Begun(workflow, source, target, tuple(tables.split(",")), topology.keyspaces[target].shards, NOW, None)
