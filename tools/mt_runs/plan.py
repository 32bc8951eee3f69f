"""The steps of a switch or of a reversal, in the order in which they are taken.

`step W N` takes the step at place N of this list. docs/OPERATING.md and docs/VITESS.md have the twelve steps with what is served after each.
"""
from __future__ import annotations

from collections.abc import Collection, Sequence
from dataclasses import dataclass

READS, DENY, REFRESH_OLD, CATCH_UP, STOP, MAKE_BACK, JOURNAL, ALLOW, REFRESH_NEW, WRITES, START_BACK, FREEZE = range(12)
# `old` is the side that served before the way, `new` the one that serves behind it.
NAMES = {
    READS: "reads: rules lead to {new}",
    DENY: "deny the tables at {old}",
    REFRESH_OLD: "refresh the primary of {old}",
    CATCH_UP: "wait for the streams",
    STOP: "stop the streams",
    MAKE_BACK: "make the streams back",
    JOURNAL: "the journal",
    ALLOW: "allow the tables at {new}",
    REFRESH_NEW: "refresh the primary of {new}",
    WRITES: "writes: rules lead to {new}",
    START_BACK: "start the streams back",
    FREEZE: "freeze the old streams",
}
REMOVE = "remove the old streams"  # what a reversal does in place of freezing them


@dataclass(frozen=True)
class PlannedStep:
    """One `step`: which of the twelve it is, and for which shard of the target if it is one for each (None otherwise)."""

    number: int
    shard: str | None
    back: bool

    @property
    def is_journal(self) -> bool:
        """Whether it is the one that writes the journal, before which the way can be undone."""
        return self.number == JOURNAL

    @property
    def waits(self) -> bool:
        """Whether it is refused as long as a write has not been brought to the other side."""
        return self.number in (READS, CATCH_UP)

    @property
    def refreshes(self) -> bool:
        """Whether it has a primary take over what the topology denies there, the target's shard by shard."""
        return self.number in (REFRESH_OLD, REFRESH_NEW)

    def name(self, old: str, new: str) -> str:
        """What it does, with the words for the side that served and for the one that will."""
        if self.number == FREEZE and self.back:
            return REMOVE
        return NAMES[self.number].format(old=old, new=new)


def planned_steps(types: Collection[str], back: bool, shards: Sequence[str]) -> list[PlannedStep]:
    """The steps of a switch of these types, or of a reversal (`back`), of a move to a target with these shards.

    Without primary there is the one that changes the reads, with primary alone there are those behind it. Of several shards the target's refresh is a
    step for each.
    """
    numbers = [READS] if set(types) - {"primary"} else []
    numbers += range(DENY, FREEZE + 1) if "primary" in types else []
    refreshes_target = REFRESH_OLD if back else REFRESH_NEW
    return [PlannedStep(number, shard, back) for number in numbers for shard in (shards if number == refreshes_target else [None])]
