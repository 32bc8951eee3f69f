"""What `dump` answers: the topology."""
from __future__ import annotations

import json
from collections.abc import Iterable, Mapping
from dataclasses import dataclass
from typing import Any

from mt_runs.program import ProgramFailed


@dataclass(frozen=True)
class Keyspace:
    """A keyspace: its shards as key ranges, in their order (`-` alone if it isn't sharded), and the tables that stand in each."""

    name: str
    shards: tuple[str, ...]
    tables: tuple[str, ...]


@dataclass(frozen=True)
class Part:
    """What a move has of a topology: the rules of its tables' twelve names, and at which of both sides its tables stand and are denied, as `keyspace.table`."""

    rules: frozenset[tuple[str, str]]
    present: frozenset[str]
    denied: frozenset[str]


@dataclass(frozen=True)
class Topology:
    """Keyspaces by their names; the routing rules, a target (`keyspace.table`) for each key; and the denied tables, as `keyspace.table`."""

    keyspaces: Mapping[str, Keyspace]
    rules: Mapping[str, str]
    denied: frozenset[str]

    def led_to(self, name: str, tablet_type: str) -> str | None:
        """Where the rules lead a name for a tablet type, as `keyspace.table`, by the look-up that docs/SCRIPT.md describes.

        The name has no type behind it. None is a name without a keyspace that has no rule and that no keyspace or several have. What is led to needn't be
        there, and whether it answers is for the program to say.
        """
        rule = self.rules.get(f"{name}@{tablet_type}") or self.rules.get(name)
        if rule or "." in name:
            return rule or name
        holders = [keyspace.name for keyspace in self.keyspaces.values() if name in keyspace.tables]
        return f"{holders[0]}.{name}" if len(holders) == 1 else None

    def part_of(self, source: str, target: str, tables: Iterable[str]) -> Part:
        """What a move of these tables has of the topology, whether it lives or not."""
        sides = frozenset(f"{side}.{table}" for side in (source, target) for table in tables)
        names = sides.union(tables)
        rules = frozenset((key, to) for key, to in self.rules.items() if key.partition("@")[0] in names)
        present = frozenset(f"{it.name}.{table}" for it in self.keyspaces.values() for table in it.tables)
        return Part(rules, sides & present, sides & self.denied)


def parse_dump(line: str) -> Topology:
    """The topology of which `dump` answered this line; `ProgramFailed` if the line has another form."""
    try:
        return _topology(json.loads(line))
    except (ValueError, KeyError, TypeError, IndexError, AttributeError) as error:
        raise ProgramFailed(f"dump was answered otherwise than docs/SCRIPT.md says: {line[:200]}") from error


def _topology(document: dict[str, Any]) -> Topology:
    keyspaces = [Keyspace(it["name"], tuple(it["shards"]), tuple(it["tables"])) for it in document["keyspaces"]]
    rules = {it["from_table"]: it["to_tables"][0] for it in document["rules"]}
    return Topology({it.name: it for it in keyspaces}, rules, frozenset(document["denied"]))
