"""What a real cluster printed behind a command, beside what the rehearsal has there."""
from __future__ import annotations

import os
from collections.abc import Iterator, Mapping

from mt_rehearsal.cluster import Seen, Shard
from mt_rehearsal.report import Departure
from mt_rehearsal.states import denied_tables
from mt_runs.pages import table_rows
from mt_runs.program import REPOSITORY
from mt_runs.topology import Topology

VITESS_PAGE = REPOSITORY / "docs/VITESS.md"
KNOWN_HEAD = ["departure", "behind", "the cluster has", "the rehearsal has"]
NO_RULE, NOTHING = "no rule", "none"
GIVEN_BACK = "a rule from before `create`"


def known_departures(path: str | os.PathLike[str] = VITESS_PAGE) -> dict[str, str]:
    """The departures that a page in the form of docs/VITESS.md knows, by their names there, each with what it says of it.

    Raises `OSError` if the page can't be read, `ValueError` if it has no such table, or one without the departure that is told apart here.
    """
    with open(path, encoding="utf-8") as page:
        rows = list(table_rows(page.read(), KNOWN_HEAD))
    known = {name: f"behind {behind} the cluster has {cluster}, the rehearsal {here}" for name, behind, cluster, here in rows}
    if GIVEN_BACK not in known:
        raise ValueError(f"{os.fspath(path)}: no table knows the departure {GIVEN_BACK}")
    return known


class Replay:
    """Compares; it keeps the rules that a `cancel` gave back, since Vitess's takes them away."""

    def __init__(self, known: Mapping[str, str]) -> None:
        self.known = known
        self.given_back: dict[str, str] = {}

    def note_cancelled(self, own_keys: list[str], after: Topology) -> None:
        """Says that a move was cancelled whose rules had these keys."""
        self.given_back.update({key: after.rules[key] for key in own_keys if key in after.rules})

    def departures(self, seen: Seen, here: Topology) -> list[Departure]:
        """Where the cluster has something else."""
        rules = {} if seen.rules is None else {it.key: ", ".join(it.targets) or "no target" for it in seen.rules}
        found = [] if seen.rules is None else list(self._of_rules(rules, here))
        return [*found, *(it for keyspace, shard in seen.shards for it in _of_shard(keyspace, shard, here))]

    def _of_rules(self, cluster: Mapping[str, str], here: Topology) -> Iterator[Departure]:
        for key in sorted({*cluster, *here.rules}):
            has, rehearsed = cluster.get(key, NO_RULE), here.rules.get(key, NO_RULE)
            if has != rehearsed:
                is_known = has == NO_RULE and self.given_back.get(key) == rehearsed
                yield Departure(key, has, rehearsed, self.known[GIVEN_BACK] if is_known else None)


def _of_shard(keyspace: str, shard: Shard, here: Topology) -> Iterator[Departure]:
    """Where a shard's record denies other tables; `mt` denies them to the primary alone, in each shard."""
    rehearsed = denied_tables(here, keyspace)
    what = f"{keyspace}/{shard.name} denies"
    primary = tuple(sorted({table for it in shard.controls if it.tablet_type in ("PRIMARY", "MASTER") for table in it.tables}))
    if primary != rehearsed:
        yield Departure(what, ", ".join(primary) or NOTHING, ", ".join(rehearsed) or NOTHING, None)
    for it in shard.controls:
        if it.tablet_type not in ("PRIMARY", "MASTER"):
            yield Departure(f"{what} to {it.tablet_type}", ", ".join(it.tables), NOTHING, None)
