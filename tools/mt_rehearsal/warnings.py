"""What an operator should know of a cluster before a plan is run on it."""
from __future__ import annotations

from collections.abc import Iterator

from mt_rehearsal.beginning import Beginning
from mt_rehearsal.cluster import Cluster, Keyspace, Rule, Seen
from mt_rehearsal.moved import Moved
from mt_rehearsal.report import Warned

NUMERIC = "numeric"  # the vindex by which rows are placed here


def of_documents(beginning: Beginning) -> Iterator[Warned]:
    """What the documents have and `mt` hasn't, and the names that they leave open."""
    yield from (it for keyspace in beginning.keyspaces for it in _of_denials(keyspace))
    for move in beginning.moves.values():
        target = beginning.keyspace(move.target)
        listed = [it for it in move.tables if it in (target.listed or ())]
        yield from _of_planned(target, [it for it in listed if it not in beginning.tables[target.name]])
        yield from _of_rivals(beginning, target, listed)
        yield from _of_vindexes(target, move)


def of_rules(beginning: Beginning, move: Moved) -> Iterator[Warned]:
    """Of a move that was created: the hand-made rules that lead to one of its tables, by another name or by one of its own."""
    own = {key for table in move.tables for key in move.own_keys(table)}
    places = {f"{side}.{table}" for side in (move.source, move.target) for table in move.tables}
    for rule in beginning.cluster.rules:
        if rule.targets[0] in places:
            yield _of_rule(rule, rule.key in own, rule.targets[0].startswith(f"{move.source}."))


def of_seen(cluster: Cluster, commands: int) -> Iterator[Warned]:
    """What was kept of the real cluster and is compared with nothing, of a plan of so many commands."""
    for number, seen in cluster.seen.items():
        if not 0 < number <= commands:
            yield Warned("document", f"after-{number}: the plan has no command {number}")
        yield from (Warned("document", f"after-{number}.{it}: there is no such shard") for it in _unknown_shards(cluster, seen))


def _unknown_shards(cluster: Cluster, seen: Seen) -> Iterator[str]:
    for name, shard in seen.shards:
        keyspace = cluster.keyspaces.get(name)
        known = {"-", "0"} if keyspace and keyspace.shards is None else {it.name for it in (keyspace.shards or () if keyspace else ())}
        if shard.name not in known:
            yield f"{name}.{shard.name}.json"


def _of_rule(rule: Rule, is_own: bool, is_at_source: bool) -> Warned:
    told = f"the rule {rule.key} -> {rule.targets[0]}"
    if is_own:
        why = "cancel gives it back here; Vitess's takes the rules for the move's names away: keep the document, to apply it again"
        return Warned("kept rule", f"{told} stands before the move. {why}")
    if not is_at_source:
        return Warned("alias", f"{told} isn't one of the move's: it stays, so queries by {rule.key} are refused until writes are switched")
    after = f"once writes are switched, queries by {rule.key} are refused, and after complete there is no table behind it"
    return Warned("alias", f"{told} isn't one of the move's: it stays, so {after}. Point it at the table's new place when you switch")


def _of_denials(keyspace: Keyspace) -> Iterator[Warned]:
    controls = [(shard.name, it) for shard in keyspace.shards or () for it in shard.controls]
    for shard, it in controls:
        told = f"{keyspace.name}/{shard} denies {', '.join(it.tables)} to {it.tablet_type} already"
        yield Warned("denied", f"{told}, and no line of mt denies a table by hand: they count as allowed")


def _of_planned(target: Keyspace, planned: list[str]) -> Iterator[Warned]:
    """Of tables that the target's VSchema lists and that count as not yet there, as no document says which are."""
    if planned and target.present is None:
        told = f"the VSchema of {target.name} lists {', '.join(planned)}: taken as planned and not yet made"
        yield Warned("listed", f"{told}, as there is no {target.name}.schema.json that says which tables are there")


def _of_rivals(beginning: Beginning, target: Keyspace, listed: list[str]) -> Iterator[Warned]:
    """Of tables that two VSchemas list, so that a gate can't tell which one a bare name means."""
    for other, tables in _rivals(beginning, target, listed).items():
        told = f"VTGate finds {', '.join(tables)} in the VSchemas of {target.name} and {other}, and no rule decides"
        until = "until create writes one, a query by the bare name is ambiguous"
        yield Warned("ambiguous", f"{told}: {until}. Set require_explicit_routing in {target.name}, or a rule {tables[0]} -> {other}.{tables[0]}")


def _rivals(beginning: Beginning, target: Keyspace, listed: list[str]) -> dict[str, list[str]]:
    """Of tables that the target's VSchema lists: those that another keyspace's lists too, with no rule for the bare name, by that keyspace."""
    if target.is_explicit:
        return {}
    ruled = {it.key for it in beginning.cluster.rules}
    found: dict[str, list[str]] = {}
    for table in listed:
        others = [it.name for it in beginning.keyspaces if it is not target and not it.is_explicit and table in (it.listed or ())]
        if others and table not in ruled:
            found.setdefault(others[0], []).append(table)
    return found


def _of_vindexes(target: Keyspace, move: Moved) -> Iterator[Warned]:
    """Of vindexes that place rows otherwise than here."""
    kinds = {table: (target.vindexes or {}).get(table, NUMERIC) for table in move.tables}
    for kind in dict.fromkeys(it for it in kinds.values() if it != NUMERIC):
        tables = ", ".join(table for table, it in kinds.items() if it == kind)
        told = f"the vindex of {tables} in {target.name} is {kind}, and mt places rows by their number alone: each shard has one sample row"
        yield Warned("vindex", f"{told}, and which of your rows goes where isn't shown")
