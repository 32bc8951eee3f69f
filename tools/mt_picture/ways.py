"""The ways of a move: the way back from a line, which is tried, and the steps that a switch in one line takes."""
from __future__ import annotations

from collections.abc import Sequence
from dataclasses import dataclass

from mt_picture.facts import DriveFacts, WayFacts
from mt_picture.moves import Begun
from mt_picture.script import words_of
from mt_runs.plan import NAMES, PlannedStep, planned_steps
from mt_runs.program import Answering, ProgramFailed, is_refusal
from mt_runs.show import Move, Way, parse_show, stream_word
from mt_runs.topology import Part, parse_dump

DRIVES = ("switch", "reverse")
MOST_TRIES = 64  # of a step by a drive, which lets a stream read so many entries between:
ENTRIES_AT_ONCE = 100
NOT_LEVEL = "refused F18 NotLevel"


@dataclass(frozen=True)
class Trial:
    """A way back that was tried: its lines up to the first that was refused, their answers, and what the move has of the topology behind them."""

    lines: Sequence[str]
    answers: Sequence[str]
    part: Part

    @property
    def was_done(self) -> bool:
        return not any(is_refusal(it) for it in self.answers)


def lines_back(shown: Move) -> list[str]:
    """The lines that lead back from where a move stands: of an open way each undo, of switched traffic the reversal, else the cancel."""
    if shown.way:
        return [f"undo {shown.name} {done}" for done in range(shown.way.done, 0, -1)] or [f"undo {shown.name} 0"]
    return [f"reverse {shown.name} all"] if shown.switched else [f"cancel {shown.name}"]


def try_back(program: Answering, before: Sequence[str], move: Begun, shown: Move) -> Trial:
    """Tries the way back from behind some lines. Raises `ProgramFailed`, as a run does."""
    lines = lines_back(shown)
    *answers, dump = program.ask(before, [*lines, "dump"])
    tried = next((place + 1 for place, answer in enumerate(answers) if is_refusal(answer)), len(lines))
    return Trial(lines[:tried], answers[:tried], parse_dump(dump).part_of(move.source, move.target, move.tables))


def step_numbers(way: Way, shards: Sequence[str]) -> list[int]:
    """The steps of a way by their numbers among the twelve; one that is done for each shard stands there so often."""
    return [step.number for step in planned_steps(way.types, way.back, shards)]


def way_facts(way: Way, shards: Sequence[str]) -> WayFacts:
    return WayFacts("back" if way.back else "forward", way.types, step_numbers(way, shards), way.done, way.undoing)


def step_names(directions: set[str]) -> list[str]:
    """The names of the twelve steps, for a move on which ways of these directions are opened."""
    old, new = {"forward": ("the source", "the target"), "back": ("the target", "the source")}[min(directions, default="forward")]
    if len(directions) > 1:
        old, new = "the old side", "the new side"
    return [PlannedStep(number, None, directions == {"back"}).name(old, new) for number in sorted(NAMES)]


def drive_facts(program: Answering, before: Sequence[str], line: str, answer: str, shards: Sequence[str]) -> DriveFacts:
    """The steps that a `switch` or a `reverse` took behind some lines, by its answer. Raises `ProgramFailed`, as a run does.

    Of one that gave itself up they are counted by taking them one by one, in runs of their own.
    """
    verb, workflow, *types = words_of(line)
    begun = [*before, " ".join([f"begin-{verb}", workflow, *types])]
    way = parse_show(program.ask(begun, [f"show {workflow}"])[0]).way
    if way is None:
        raise ProgramFailed(f"behind {begun[-1]} no way of {workflow} is open")
    steps = step_numbers(way, shards)
    outcome = answer.split(" ")[0]
    done = len(steps)
    if outcome == "stopped":
        done = int(answer.split(" ")[-1])
    elif outcome == "abandoned":
        done = _reached(program, begun, workflow, way.back)
    return DriveFacts("back" if way.back else "forward", way.types, steps, done, outcome == "abandoned")


def _reached(program: Answering, begun: Sequence[str], workflow: str, back: bool) -> int:
    """How many steps of a way are done until one is refused, with turns of the streams between, as a drive has them."""
    lines, done, tries = list(begun), 0, 1
    while True:
        step = f"step {workflow} {done}"
        shown, answer = program.ask(lines, [f"show {workflow}", step])
        if answer == "ok":
            lines, done, tries = [*lines, step], done + 1, 1
        elif answer == NOT_LEVEL and tries < MOST_TRIES:
            lines, tries = [*lines, *_feeding_turns(parse_show(shown), back)], tries + 1
        else:
            return done


def _feeding_turns(move: Move, back: bool) -> list[str]:
    """A turn of each stream that feeds the other side."""
    word, streams = ("back", move.back) if back else ("forward", move.forward)
    return [f"advance {move.name} {stream_word(word, shard)} {it.position} {ENTRIES_AT_ONCE}" for shard, it in streams.items()]
