"""The moves that a script begins."""
from __future__ import annotations

from collections.abc import Sequence
from dataclasses import dataclass

from mt_picture.script import Script, words_of
from mt_runs.topology import Topology


@dataclass(frozen=True)
class Begun:
    """A move that a script begins: the places of its `create` and of the line that ends it, if one does, from 0 on."""

    workflow: str
    source: str
    target: str
    tables: tuple[str, ...]
    shards: tuple[str, ...]
    created: int
    ended: int | None

    def stands(self, place: int) -> bool:
        """Whether it has begun by then."""
        return self.created <= place

    def lives(self, place: int) -> bool:
        """Whether it has begun by then, and hasn't ended."""
        return self.stands(place) and (self.ended is None or place < self.ended)


def moves_begun(script: Script, answers: Sequence[str], topology: Topology) -> list[Begun]:
    """The moves that a script begins, in the order of their beginnings, by its answers and the topology that it leaves."""
    words = [words_of(line) for line in script.lines]
    creates = [place for place, it in enumerate(words) if it[0] == "create" and answers[place] == "ok"]
    return [_begun(place, words, answers, topology) for place in creates]


def _begun(place: int, words: Sequence[list[str]], answers: Sequence[str], topology: Topology) -> Begun:
    _, workflow, source, target, tables = words[place]
    ends = (at for at in range(place, len(words)) if answers[at] == "ok" and words[at] in (["cancel", workflow], ["complete", workflow]))
    # a keyspace keeps the shards that it was made with, so those of the last topology are those of all
    shards = topology.keyspaces[target].shards
    return Begun(workflow, source, target, tuple(tables.split(",")), shards, place, next(ends, None))
