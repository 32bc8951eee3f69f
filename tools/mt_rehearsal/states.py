"""The topologies between the commands of a plan, and what makes two of them the same."""
from __future__ import annotations

from collections.abc import Sequence

from mt_rehearsal.moved import Moved
from mt_rehearsal.report import DeniedChange, RuleChange, SameAs
from mt_runs.topology import Topology


class States:
    """The topology before each command that was rehearsed so far."""

    def __init__(self) -> None:
        self._before: list[tuple[int, Topology]] = []

    def add(self, number: int, topology: Topology) -> None:
        """Says how the topology stands before a command."""
        self._before.append((number, topology))

    def same_as(self, topology: Topology, move: Moved) -> SameAs | None:
        """The latest command before which all of the topology was this one; or else the latest before which the move's part of it was."""
        whole = next((number for number, it in reversed(self._before) if it == topology), None)
        if whole is not None:
            return SameAs(whole, True)
        part = move.part_of(topology)
        same = next((number for number, it in reversed(self._before) if move.part_of(it) == part), None)
        return None if same is None else SameAs(same, False)


def rule_changes(before: Topology, after: Topology) -> list[RuleChange]:
    """The rules that differ, by their keys."""
    keys = sorted({*before.rules, *after.rules})
    return [RuleChange(it, before.rules.get(it), after.rules.get(it)) for it in keys if before.rules.get(it) != after.rules.get(it)]


def denied_tables(topology: Topology, keyspace: str) -> tuple[str, ...]:
    """The tables of a keyspace that are denied."""
    return tuple(sorted(table for name, _, table in (it.partition(".") for it in topology.denied) if name == keyspace))


def denied_changes(before: Topology, after: Topology, shards: dict[str, tuple[str, ...]]) -> list[DeniedChange]:
    """The keyspaces whose denied tables differ."""
    found: Sequence[DeniedChange] = [DeniedChange(name, labels, denied_tables(after, name)) for name, labels in shards.items()]
    return [it for it in found if it.tables != denied_tables(before, it.keyspace)]


def dropped_tables(before: Topology, after: Topology) -> list[str]:
    """The tables that aren't there any more."""
    there = {f"{it.name}.{table}" for it in after.keyspaces.values() for table in it.tables}
    return sorted({f"{it.name}.{table}" for it in before.keyspaces.values() for table in it.tables} - there)
