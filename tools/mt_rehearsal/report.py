"""The report of a rehearsal, as data. docs/REHEARSE.md defines its form as a document, which `as_document` makes."""
from __future__ import annotations

import dataclasses
from collections.abc import Iterable, Mapping, Sequence
from dataclasses import dataclass, field
from typing import Any

FORM = 1  # of the document
DONE, REFUSED, PASSED_OVER, SHOWN = "done", "refused", "passed over", "shown"
CAN_RUN, NOT_AS_PLANNED, CANNOT_REPRESENT = 0, 1, 2
SERVED = "served"


@dataclass(frozen=True)
class Warned:
    """Something to look at before the plan is run; `kind` is one of those of docs/REHEARSE.md."""

    kind: str
    text: str


@dataclass(frozen=True)
class Refused:
    """A refusal, with the words of docs/SCRIPT.md on it."""

    name: str
    when: str
    what_to_do: str


@dataclass(frozen=True)
class Conflict:
    """A rule that keeps a move from being created, and where it would have to lead."""

    key: str
    target: str
    wanted: str


@dataclass(frozen=True)
class RuleChange:
    """A routing rule that changed: `was` or `now` is None where there is none."""

    key: str
    was: str | None
    now: str | None


@dataclass(frozen=True)
class DeniedChange:
    """What the record of each shard of a keyspace denies now."""

    keyspace: str
    shards: tuple[str, ...]
    tables: tuple[str, ...]


@dataclass(frozen=True)
class Reached:
    """What a query met: where its name is led to by the rules (None if nowhere), and `served` or the refusal that it was answered."""

    place: str | None
    answer: str

    @property
    def is_served(self) -> bool:
        """Whether it was answered with a row, or with none."""
        return self.answer == SERVED


# What queries of one name and one tablet type meet, by the shards of the target in which their rows stand.
ByShard = Mapping[str, Reached]


@dataclass(frozen=True)
class Query:
    """What queries by a name of a table meet, for each tablet type."""

    table: str
    name: str
    reached: Mapping[str, ByShard]


@dataclass(frozen=True)
class SameAs:
    """That a topology is the one from before a command: all of it, or else the part that belongs to the move."""

    command: int
    is_whole: bool


@dataclass(frozen=True)
class Copied:
    """How many rows the streams copied behind a `create`, and how many entries of the log they read."""

    rows: int
    entries: int


@dataclass(frozen=True)
class Undo:
    """An undo of all steps of a switch that is open: what `mt` answered, and whether the topology is then that from before its begin."""

    answer: str
    is_as_before: bool


@dataclass(frozen=True)
class StepShown:
    """A step inside a command, or its begin: what is so behind it.

    `place` is the number that `step` takes, None for the begin. `entries` is how many entries of logs were read so that it could be taken, None if it
    didn't wait. `undo` is None behind the last step.
    """

    place: int | None
    name: str
    is_journal: bool
    entries: int | None
    queries: Sequence[Query]
    refusing: Mapping[str, Mapping[str, tuple[str, ...]]]
    denied: tuple[str, ...]
    undo: Undo | None


@dataclass(frozen=True)
class WayBack:
    """A way back, tried in a run of its own: its commands, the lines that stood for them, and `ok` or the refusal that ended it.

    `same_as` is None if it was refused, or if the topology behind it was never the one from before a command.
    """

    commands: tuple[str, ...]
    lines: tuple[str, ...]
    answer: str
    same_as: SameAs | None


@dataclass(frozen=True)
class Departure:
    """Where the cluster has something else than the rehearsal: a rule's key, or a shard's denials; `known` is why, if docs/VITESS.md knows it."""

    what: str
    cluster: str
    rehearsal: str
    known: str | None


@dataclass
class CommandReport:
    """What came of a command of the plan."""

    number: int
    line: int
    text: str
    action: str
    outcome: str
    is_dry_run: bool
    workflow: str | None = None
    source: str | None = None
    target: str | None = None
    tables: tuple[str, ...] = ()
    types: tuple[str, ...] = ()
    not_shown: list[str] = field(default_factory=list)
    answer: str | None = None
    refused: Refused | None = None
    conflicts: list[Conflict] = field(default_factory=list)
    without_conflicts: str | None = None
    copied: Copied | None = None
    steps: list[StepShown] = field(default_factory=list)
    rules: list[RuleChange] = field(default_factory=list)
    denied: list[DeniedChange] = field(default_factory=list)
    dropped: list[str] = field(default_factory=list)
    has_ended: bool = False
    queries: list[Query] = field(default_factory=list)
    same_as: SameAs | None = None
    ways_back: list[WayBack] = field(default_factory=list)
    departures: list[Departure] | None = None
    all_rules: Mapping[str, str] = field(default_factory=dict)
    script_lines: int = 0


@dataclass
class Report:
    """A rehearsal. `cannot` is why it ended before the plan did, if it did; `shards` has the names of each keyspace's shards."""

    shards: dict[str, tuple[str, ...]] = field(default_factory=dict)
    commands: list[CommandReport] = field(default_factory=list)
    warnings: list[Warned] = field(default_factory=list)
    problems: list[str] = field(default_factory=list)
    cannot: str | None = None
    watchers: tuple[str, ...] = ()
    script: list[str] = field(default_factory=list)

    @property
    def status(self) -> int:
        """The status to end with."""
        if self.cannot:
            return CANNOT_REPRESENT
        return NOT_AS_PLANNED if self.problems else CAN_RUN

    def warn(self, warnings: Iterable[Warned]) -> None:
        """Adds warnings, but for those that are there."""
        self.warnings = list(dict.fromkeys([*self.warnings, *warnings]))


def as_document(report: Report) -> dict[str, Any]:
    """The report in the form that is written as JSON."""
    return {"form": FORM, "status": report.status, **dataclasses.asdict(report)}
