"""A script that grows line by line, and questions behind it."""
from __future__ import annotations

from collections.abc import Iterable, Sequence

from mt_runs.program import Program, is_refused
from mt_runs.show import Move, parse_show
from mt_runs.topology import Topology, parse_dump

READS = ("get", "show", "rules", "dump")


def _is_read(line: str) -> bool:
    words = line.split()
    return words[0] in READS or (words[0] == "at" and words[2:3] == ["get"])


class Session:
    """The lines so far, each of which was done; every question is asked in a run of its own, and leaves nothing."""

    def __init__(self, program: Program) -> None:
        self.program = program
        self.lines: list[str] = []

    def take(self, lines: Sequence[str]) -> list[str]:
        """The answers to lines that are added in turn. Of those that are refused and those that only read nothing is kept. Raises `ProgramFailed`."""
        answers = self.ask(lines)
        self.lines += [line for line, answer in zip(lines, answers) if not is_refused(answer) and not _is_read(line)]
        return answers

    def ask(self, lines: Iterable[str]) -> list[str]:
        """The answers to lines behind those so far. Nothing stays. Raises `ProgramFailed`."""
        asked = list(lines)
        return self.program.ask(self.lines, asked) if asked else []

    def topology(self) -> Topology:
        """The topology now."""
        return parse_dump(self.ask(["dump"])[0])

    def move(self, workflow: str) -> Move | None:
        """How a workflow stands; None if none of that name is live."""
        answer = self.ask([f"show {workflow}"])[0]
        return None if is_refused(answer) else parse_show(answer)
