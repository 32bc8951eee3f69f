"""The script that is typed line by line, and what the program answers to each line of it."""
from __future__ import annotations

import abc
import itertools
import os
from collections.abc import Iterator, Sequence

from mt_runs.program import MOST_WATCHERS, Program, ProgramFailed, is_refused
from mt_runs.show import Move, parse_show, stream_word
from mt_runs.topology import Topology, parse_dump

UNREAD = ("refused X1 BadLine", "refused X2 LineTooLong")
MOST_ROUNDS = 100  # of turns, to find how far a stream lags


class Script(abc.ABC):
    """Lines that are answered one by one, and what a prompt asks beside them. Each call raises `ProgramFailed` where there is no answer."""

    @property
    @abc.abstractmethod
    def watchers(self) -> tuple[str, ...]:
        """The keyspaces that have a watcher."""

    @property
    @abc.abstractmethod
    def lines(self) -> Sequence[str]:
        """The lines so far."""

    @abc.abstractmethod
    def ask(self, lines: Sequence[str]) -> list[str]:
        """The answers to lines behind those so far. Nothing stays."""

    @abc.abstractmethod
    def take(self, line: str) -> str:
        """The answer to a line, which stays. A comment behind it, which the language has none of, is left out."""

    @abc.abstractmethod
    def take_comment(self, line: str) -> None:
        """Takes a line that isn't answered."""

    @abc.abstractmethod
    def take_back(self) -> str | None:
        """Takes the last line away; None if there is none."""

    @abc.abstractmethod
    def workflows(self) -> set[str]:
        """The names that workflows were given."""

    def topology(self) -> Topology:
        """The topology now."""
        return parse_dump(self.ask(["dump"])[0])

    def move(self, workflow: str) -> Move | None:
        """How a workflow stands; None if none of that name is live, or it is no name."""
        answer = self.ask([f"show {workflow}"])[0]
        return None if is_refused(answer) else parse_show(answer)

    def filled_in(self, line: str) -> list[str]:
        """The lines that a short one stands for: of `advance W` and `advance W STREAM`, `step W` and `undo W` with the numbers that `show` gives.

        `advance W` is a turn of each stream that runs. Where `show` gives no number it is 0, and the program says why. Any other line stands for itself.
        """
        words = without_comment(line)
        if (words[0], len(words)) not in (("advance", 2), ("advance", 3), ("step", 2), ("undo", 2)):
            return [line]
        move = self.move(words[1])
        if words[0] != "advance":
            return [f"{words[0]} {words[1]} {move.way.done if move and move.way else 0}"]
        streams = running_streams(move) if move else {}
        asked = words[2:] or list(streams) or ["forward"]
        return [f"advance {words[1]} {stream} {streams.get(stream, 0)} 100" for stream in asked]

    def lag(self, move: Move) -> Iterator[tuple[str, int, int]]:
        """Of each stream that runs how many entries it has still to read, and how many rows then to copy: by turns in runs of their own."""
        for stream, position in running_streams(move).items():
            yield (stream, *self._left_to_do(move.name, stream, position))

    def _left_to_do(self, workflow: str, stream: str, position: int) -> tuple[int, int]:
        """How many entries and rows a stream has still to bring."""
        turns: list[str] = []
        entries = rows = 0
        for _ in range(MOST_ROUNDS):
            turns.append(f"advance {workflow} {stream} {position + entries} 65535")
            read, copied = _done(self.ask(turns)[-1])
            if not read + copied:
                break
            entries, rows = entries + read, rows + copied
        return entries, rows

    def reading(self, line: str) -> str:
        """What of a line the language reads: all of it, unless it reads it only without a comment at its end."""
        read = line
        for read in _readings(line):
            if "#" not in line or self.ask([read])[0] not in UNREAD:
                break
        return read


class TypedScript(Script):
    """The lines so far: those that weren't refused, and comments. Raises `ProgramFailed` where a run fails; nothing is kept of that line.

    The keyspaces named have a watcher; where none is named each one that the script makes has.
    """

    def __init__(self, program: str | os.PathLike[str], keyspaces: Sequence[str]) -> None:
        self.program = Program(program, keyspaces)
        self.keyspaces = tuple(keyspaces)
        self._lines: list[str] = []
        self.program.answers([])  # it is there, and takes these words

    @property
    def lines(self) -> Sequence[str]:
        return self._lines

    @property
    def watchers(self) -> tuple[str, ...]:
        made = (line.split() for line in self.lines)
        return self.keyspaces or tuple(words[1] for words in made if words[:1] == ["keyspace"])[:MOST_WATCHERS]

    def ask(self, lines: Sequence[str]) -> list[str]:
        self.program.watchers = self.watchers
        return self.program.ask(self.lines, lines)

    def take(self, line: str) -> str:
        """The answer to a line, which is kept unless it is refused."""
        read = self.reading(line)
        answer = self.ask([read])[0]
        if not is_refused(answer):
            self._lines.append(read)
        return answer

    def take_comment(self, line: str) -> None:
        self._lines += [line] if line else []

    def take_back(self) -> str | None:
        return self._lines.pop() if self._lines else None

    def workflows(self) -> set[str]:
        return {words[1] for words in map(str.split, self.lines) if words[:1] == ["create"]}


def running_streams(move: Move) -> dict[str, int]:
    """The positions of the streams that run, by the words that lines have for them."""
    streams = [(way, shard, it) for way, them in (("forward", move.forward), ("back", move.back)) for shard, it in them.items()]
    return {stream_word(way, shard): it.position for way, shard, it in streams if it.is_running}


def _done(answer: str) -> tuple[int, int]:
    """How many entries a turn read, and how many rows it copied."""
    words = answer.split()
    if words[0] != "events":
        raise ProgramFailed(f"mt answers `{answer}` to a turn of a stream")
    return int(words[1]), int(words[3])


def without_comment(line: str) -> list[str]:
    """The words of a line that isn't silent, up to the first behind it that begins with `#`. A line of the language may have a value that begins so."""
    first, *words = line.split() or [""]
    return [first, *itertools.takewhile(lambda it: not it.startswith("#"), words)] if first else []


def _readings(line: str) -> Iterator[str]:
    """A line as it stands, and then without what may be a comment: from a word on that begins with `#`, the last one first.

    `#` may begin a value too. So the longest of them that the language reads is the line.
    """
    yield line
    words = line.split()
    for at in range(len(words) - 1, 0, -1):
        if words[at].startswith("#"):
            yield " ".join(words[:at])
