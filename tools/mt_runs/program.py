"""Runs of the program `mt`: a script in, its answers out."""
from __future__ import annotations

import os
import pathlib
import subprocess
from collections.abc import Iterable, Sequence
from typing import Protocol

REPOSITORY = pathlib.Path(__file__).resolve().parents[2]
OWN_PROGRAM = REPOSITORY / "mt"
MOST_WATCHERS = 31
MOST_BYTES = 1_048_576  # of a script


class ProgramFailed(Exception):
    """The program isn't there, ended otherwise than well, or answered what docs/SCRIPT.md doesn't say; the text says which."""


def is_silent(line: str) -> bool:
    """Whether a line of a script is answered by nothing: an empty one, one of blanks, a comment."""
    line = line[:-1] if line.endswith("\r") else line
    return line.startswith("#") or not line.strip(" \t")


def is_refused(answer: str) -> bool:
    """Whether a line was refused, so that it changed nothing."""
    return answer.startswith("refused ")


def is_refusal(answer: str) -> bool:
    """Whether an answer names a refusal: of the line, or of a step that a whole switch gave itself up at, or stopped at."""
    return is_refused(answer) or answer.startswith(("abandoned ", "stopped "))


class Answering(Protocol):
    """What answers questions behind some lines, as a `Program` does."""

    def ask(self, before: Sequence[str], more: Sequence[str]) -> list[str]:
        """The answers to the lines `more` behind the lines `before`. Nothing stays. Raises `ProgramFailed`."""


class Program:
    """The program, with the keyspaces whose primaries have a watcher.

    A run begins with nothing and keeps nothing, and takes milliseconds. So what a script leaves is asked for by running it again with the questions behind
    it, and whatever these change is gone with that run. `runs` counts the runs so far.
    """

    def __init__(self, path: str | os.PathLike[str] = OWN_PROGRAM, watchers: Iterable[str] = ()) -> None:
        self.path = os.fspath(path)
        self.watchers = tuple(watchers)
        self.runs = 0

    def answers(self, lines: Sequence[str]) -> list[str]:
        """The answer to each line that isn't silent.

        A line is text without a line feed; bytes that are no UTF-8 stand in it as Python's surrogates. Raises `ProgramFailed`: the script is too long, the
        program can't be started, ends with another status than 0, or answers more or fewer lines.
        """
        script = "".join(f"{line}\n" for line in lines).encode("utf-8", "surrogateescape")
        if len(script) > MOST_BYTES:
            raise ProgramFailed(f"the script has {len(script):,} bytes, and mt reads {MOST_BYTES:,} at most")
        answers = self._output(script).split("\n")
        asked = sum(not is_silent(line) for line in lines)
        if answers.pop() or len(answers) != asked:
            raise ProgramFailed(f"{self.path} answered {len(answers)} of {asked} lines")
        return answers

    def ask(self, before: Sequence[str], more: Sequence[str]) -> list[str]:
        """The answers to the lines `more` behind the lines `before`. Nothing stays. Raises `ProgramFailed`, as `answers` does."""
        answers = self.answers([*before, *more])
        return answers[sum(not is_silent(line) for line in before) :]

    def _output(self, script: bytes) -> str:
        """What a run prints."""
        self.runs += 1
        try:
            ended = subprocess.run([self.path, "run", *self.watchers], input=script, stdout=subprocess.PIPE, stderr=subprocess.PIPE, check=False)
        except (OSError, ValueError) as error:
            raise ProgramFailed(f"{self.path} can't be run: {error}") from error
        if ended.returncode:
            said = ended.stderr.decode(errors="replace").strip()
            raise ProgramFailed(f"{self.path} ended with status {ended.returncode}: {said[-300:] or 'it said nothing'}")
        return ended.stdout.decode(errors="replace")
