"""What `show W` answers: how a move stands."""
from __future__ import annotations

from collections.abc import Mapping
from dataclasses import dataclass

from mt_runs.program import ProgramFailed

TYPES = ("primary", "replica", "rdonly")
STATES = ("running", "stopped", "frozen")


@dataclass(frozen=True)
class Stream:
    """A stream of one shard: its state, one of `STATES`, and how many entries of the log that it reads are behind it.

    `copied` says of a forward stream whether its copy has ended; of one back it is None, since that copies nothing.
    """

    state: str
    position: int
    copied: bool | None

    @property
    def is_running(self) -> bool:
        """Whether an `advance` of it is taken."""
        return self.state == "running"


@dataclass(frozen=True)
class Way:
    """A switch that is open, or a reversal (`back`): the types that it changes, how many of its steps stand done, and whether an undo of it was taken."""

    back: bool
    types: tuple[str, ...]
    done: int
    undoing: bool


@dataclass(frozen=True)
class Move:
    """A live workflow. Its streams stand by the shards of the target, in their order; `back` is empty where there is no stream back."""

    name: str
    source: str
    target: str
    tables: tuple[str, ...]
    switched: tuple[str, ...]
    way: Way | None
    forward: Mapping[str, Stream]
    back: Mapping[str, Stream]


def stream_word(way: str, shard: str) -> str:
    """A stream as lines name it: `forward` or `back`, with the shard behind it unless the target isn't sharded."""
    return way if shard == "-" else f"{way}/{shard}"


def parse_show(line: str) -> Move:
    """The move of which `show` answered this line; `ProgramFailed` if the line has another form, a refusal's among them."""
    try:
        return _move(line.split(" "))
    except (IndexError, ValueError) as error:
        raise ProgramFailed(f"show was answered otherwise than docs/SCRIPT.md says: {line[:200]}") from error


def _listed(word: str) -> tuple[str, ...]:
    return () if word == "-" else tuple(word.split(","))


def _expect(word: str, wanted: str) -> None:
    if word != wanted:
        raise ValueError(f"{word} for {wanted}")


def _move(words: list[str]) -> Move:
    name, source, target, tables = words[:4]
    _expect(words[4], "switched")
    _expect(words[6], "way")
    # a keyspace may be called `forward` or `back`, so these are looked for by their places
    way, rest = _way(words[7:])
    _expect(rest[0], "forward")
    behind = len(rest) - 2 if rest[-1] == "none" else _place_of_back(rest)
    _expect(rest[behind], "back")
    forward = _streams(rest[1:behind], with_copy=True)
    back = {} if rest[behind + 1 :] == ["none"] else _streams(rest[behind + 1 :], with_copy=False)
    return Move(name, source, target, tuple(tables.split(",")), _listed(words[5]), way, forward, back)


def _place_of_back(words: list[str]) -> int:
    return len(words) - 1 - words[::-1].index("back")


def _way(words: list[str]) -> tuple[Way | None, list[str]]:
    """The way that is open, and the words behind it."""
    if words[0] == "none":
        return None, words[1:]
    if words[0] not in ("forward", "back"):
        raise ValueError(words[0])
    undoing = words[3] == "undoing"
    return Way(words[0] == "back", _listed(words[1]), int(words[2]), undoing), words[4 if undoing else 3 :]


def _streams(words: list[str], with_copy: bool) -> dict[str, Stream]:
    """The streams by their shards; of a target that isn't sharded the one word `-` is left out."""
    if words[0] in STATES:
        words = ["-", *words]
    width = 4 if with_copy else 3
    if not words or len(words) % width:
        raise ValueError(f"{len(words)} words")
    parts = [words[at : at + width] for at in range(0, len(words), width)]
    return {part[0]: _stream(part[1:]) for part in parts}


def _stream(words: list[str]) -> Stream:
    if words[0] not in STATES or words[2:] not in ([], ["copying"], ["copied"]):
        raise ValueError(" ".join(words))
    return Stream(words[0], int(words[1]), words[2] == "copied" if len(words) > 2 else None)
