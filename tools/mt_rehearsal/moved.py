"""What of a cluster a move is about: its two sides, its tables with all names that lead to them, and a row's key for each shard of the target."""
from __future__ import annotations

from collections.abc import Mapping
from dataclasses import dataclass

from mt_runs.topology import Part, Topology

TYPES_BEHIND = ("", "@primary", "@replica", "@rdonly")


@dataclass(frozen=True)
class Moved:
    """A move of the plan. `shards` has for each key range of the target the shard's name in Vitess, `keys` a row of it, `aliases` the names of hand-made
    rules that lead to a table at either side."""

    workflow: str
    source: str
    target: str
    tables: tuple[str, ...]
    shards: Mapping[str, str]
    keys: Mapping[str, int]
    source_shard: str
    aliases: Mapping[str, tuple[str, ...]]

    def own_names(self, table: str) -> tuple[str, str, str]:
        """The names whose rules belong to the move."""
        return table, f"{self.source}.{table}", f"{self.target}.{table}"

    def names(self, table: str) -> tuple[str, ...]:
        """All names by which queries reach a table: its own, and its aliases."""
        return (*self.own_names(table), *self.aliases.get(table, ()))

    def own_keys(self, table: str) -> list[str]:
        """The keys of rules that belong to the move: each name for all types, and for each type."""
        return [name + behind for name in self.own_names(table) for behind in TYPES_BEHIND]

    def part_of(self, topology: Topology) -> Part:
        """What of a topology belongs to the move."""
        return topology.part_of(self.source, self.target, self.tables)
