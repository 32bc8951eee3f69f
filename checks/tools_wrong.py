"""Wrong answers, planted: in programs that tools/rehearse and tools/prompt run in the place of `mt`, and in the tools themselves."""
from __future__ import annotations

import contextlib
import pathlib
import tempfile
from collections.abc import Callable, Iterator
from unittest import mock

import tools_outputs
import tools_plans
import tools_prompt
from mt_rehearsal import rehearse, switching, ways_back
from mt_rehearsal.moved import Moved
from mt_rehearsal.report import SameAs, Undo, WayBack
from mt_rehearsal.switching import Switching
from mt_runs.program import Program, ProgramFailed, is_silent
from mt_runs.topology import Topology

Answers = list[str]
# What a program does to the answers to lines, and what the rehearsal tells then: a part of its problems, or of the reason why it ends.
CHANGES: list[tuple[str, Callable[[list[str], Answers], Answers], str]] = [
    ("leaves out the last one", lambda lines, answers: answers[:-1], "lines"),
    ("answers once more", lambda lines, answers: [*answers, "ok"], "lines"),
    ("has other words in show", lambda lines, answers: [it.replace("switched", "swapped") for it in answers], "show was answered otherwise"),
    ("has other members in dump", lambda lines, answers: [it.replace('"rules"', '"ruled"') for it in answers], "dump was answered otherwise"),
    ("has other words on a turn", lambda lines, answers: [it.replace("events", "event") for it in answers], "to a turn of a stream"),
    (
        "answers a read by name with another row",
        lambda lines, answers: ["row stale" if line.startswith("get corder@replica") else it for line, it in zip(lines, answers)],
        "mt answers `row stale` to a read by corder@replica",
    ),
    (
        "refuses a step",
        lambda lines, answers: ["refused F27 Full" if line.startswith("step ") else it for line, it in zip(lines, answers)],
        "mt answers `refused F27 Full` to `step orders 0`",
    ),
    (
        "doesn't give back by an undo",
        lambda lines, answers: [it.replace("commerce.corder", "commerce.cart") for it in answers] if lines[-2:][0].startswith("undo") else answers,
        "an undo behind `begun` leads to another topology",
    ),
    (
        "doesn't give back by a cancel",
        lambda lines, answers: [it.replace('"denied":[]', '"denied":["commerce.corder"]') for it in answers] if lines[-2:][0].startswith("cancel") else answers,
        "the way back cancel leads to another topology",
    ),
]
ENDS_EARLY = """#!/bin/sh
script=$(cat)
case $script in *boom*) exit 1 ;; esac
printf '%s\\n' "$script" | {program} "$@"
"""


def wrong_program(change: Callable[[list[str], Answers], Answers]) -> contextlib.AbstractContextManager:
    """A time in which all programs answer wrongly."""
    right = Program._output

    def changed(self: Program, script: bytes) -> str:
        """What a run prints then."""
        lines = [it for it in script.decode().split("\n") if not is_silent(it)]
        return "".join(f"{it}\n" for it in change(lines, right(self, script).split("\n")[:-1]))

    return mock.patch.object(Program, "_output", changed)


def programs(program: str) -> Iterator[str | None]:
    """Which programs that answer wrongly aren't told apart, and what the prompt says of one that ends in the middle."""
    folder = tools_outputs.REHEARSALS / "stops_in_the_middle"
    for what, change, wanted in CHANGES:
        with wrong_program(change):
            told = ended_with(folder, program)
        yield None if wanted in told else f"a program that {what}: {told[:300]}; wanted {wanted}"
    with tempfile.TemporaryDirectory() as room:
        path = pathlib.Path(room) / "ends_early"
        path.write_text(ENDS_EARLY.format(program=program))
        path.chmod(0o755)
        got = tools_prompt.piped(str(path), b"keyspace a\nboom\nkeyspace a\nlines\n").stdout.decode()
    want = "ended with status 1: it said nothing\nrefused F30 Exists\n"
    yield None if want in got and got.endswith("\nkeyspace a\n") else f"a prompt whose program ends early prints {got!r}"


def ended_with(folder: pathlib.Path, program: str) -> str:
    """What is told of a rehearsal that doesn't go as planned."""
    try:
        report = rehearse.rehearse_folder(folder, program)
        return f"{report.cannot} {report.problems}"
    except ProgramFailed as error:
        return str(error)


def planted(program: str) -> Iterator[str | None]:
    """Which faults of the tool the other checks don't see."""
    none_told = mock.patch.object(Moved, "names", Moved.own_names)
    yield unseen("an alias isn't told", none_told, lambda: differing(program, "aliases"))
    untried = mock.patch.object(ways_back, "_tried", lambda session, states, move, way: WayBack(tuple(name for name, _ in way), (), "ok", SameAs(1, True)))
    yield unseen("a way back isn't tried", untried, lambda: drawn(program))
    unchecked = mock.patch.object(Switching, "_undo", lambda self, done: Undo("ok", True))
    yield unseen("an undo isn't tried", unchecked, lambda: differing(program, "two_shards"))
    misled = mock.patch.object(Topology, "led_to", lambda self, name, tablet_type: "customer.corder" if name == "corder" else name)
    yield unseen("a name is led elsewhere", misled, lambda: differing(program, "two_shards"))
    unfed = mock.patch.object(switching, "level", lambda session, move: None)
    yield unseen("a step doesn't wait", unfed, lambda: differing(program, "two_shards"))


def unseen(what: str, fault: contextlib.AbstractContextManager, sees: Callable[[], bool]) -> str | None:
    """Complains if a fault that is planted isn't seen."""
    with fault:
        try:
            is_seen = sees()
        except (ProgramFailed, AttributeError):
            is_seen = True
    return None if is_seen else f"planted, and not seen: {what}"


def differing(program: str, name: str) -> bool:
    """Whether the output of a rehearsal isn't the one beside it."""
    folder = tools_outputs.REHEARSALS / name
    return tools_outputs.output(rehearse.rehearse_folder(folder, program)) != folder.with_suffix(".output").read_text(encoding="utf-8")


def drawn(program: str) -> bool:
    """Whether one of the first drawn plans is complained of."""
    return any(tools_plans.complaints(program, number) for number in range(20))
