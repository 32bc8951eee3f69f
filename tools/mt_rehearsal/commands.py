"""The commands of a runbook, `vtctldclient ..` as they are pasted into plan.txt."""
from __future__ import annotations

import pathlib
import re
import shlex
from collections.abc import Iterator, Mapping
from dataclasses import dataclass

from mt_rehearsal.cluster import PLAN
from mt_rehearsal.documents import CannotRehearse, read_text

MOVE_TABLES = "MoveTables"
CREATE, SWITCH, REVERSE, CANCEL, COMPLETE = "create", "switchtraffic", "reversetraffic", "cancel", "complete"
SHOWS = ("show", "status")
REHEARSED = (CREATE, SWITCH, REVERSE, CANCEL, COMPLETE, *SHOWS)
# Flags that name what a command is about, of all commands of a workflow and of one alone; and the one that names the cluster.
OF_WORKFLOW = ("workflow", "target-keyspace")
OF_CLUSTER = ("server",)
OF_ACTION = {CREATE: ("source-keyspace", "tables", "all-tables", "exclude-tables"), SWITCH: ("tablet-types",), REVERSE: ("tablet-types",)}
# Flags without a value behind them. Any other takes one, unless it has it behind a `=`.
ALONE = (
    *("all-tables", "atomic-copy", "auto-start", "compact", "defer-secondary-keys", "dry-run", "enable-reverse-replication", "force", "help", "keep-data"),
    *("initialize-target-sequences", "keep-routing-rules", "logtostderr", "alsologtostderr", "no-routing-rules", "rename-tables", "stop-after-copy"),
    *("ignore-source-keyspace", "remove-sharded-auto-increment"),
)
SHORT = {"w": "workflow"}
# What the cluster does with a flag that has no meaning here, where that is another topology than the one that is rehearsed.
DEPARTS = {
    "keep-data": "the cluster keeps the tables that are dropped here",
    "rename-tables": "the cluster renames the tables that are dropped here",
    "keep-routing-rules": "the cluster keeps the rules that are taken away here",
    "no-routing-rules": "the cluster doesn't write the rules that are written here",
    "stop-after-copy": "the cluster's streams stop behind the copy, and go on here",
    "auto-start": "the cluster's streams wait for a start, and run here",
    "enable-reverse-replication": "without the streams back there is no way back by reversetraffic on the cluster",
    "cells": "the cluster changes the traffic of these cells alone, and all is changed here",
    "shards": "the cluster does it on these shards alone, and on all here",
    "source-shards": "the cluster does it from these shards alone, and from all here",
}
# Of these flags the value that changes nothing; of the others it is false.
WITHOUT_EFFECT = {"auto-start": "true", "enable-reverse-replication": "true"}
WORD = re.compile(r"[!-~]+")
KINDS = re.compile(r"[A-Z][A-Za-z]+")
BETWEEN = ("&&", ";", "||", "&")


@dataclass(frozen=True)
class Command:
    """A command of the plan: its words, `kind` as `MoveTables`, `action` as `create` (empty where there is none), its flags, and words that are left over."""

    number: int
    line: int
    words: tuple[str, ...]
    kind: str
    action: str
    flags: Mapping[str, str]
    left: tuple[str, ...]

    @property
    def is_dry_run(self) -> bool:
        """Whether it only tells what it would do."""
        return self.flags.get("dry-run", "false") != "false"

    @property
    def is_rehearsed(self) -> bool:
        """Whether the program has it, and it isn't a dry run."""
        return self.kind == MOVE_TABLES and self.action in REHEARSED and not self.is_dry_run

    @property
    def text(self) -> str:
        """The command as it is told: with the flags that have a meaning here, or as it stands if it has none."""
        if not self.is_rehearsed:
            return " ".join(self.words)
        flags = [f"--{it}" if it in ALONE else f"--{it} {self.flags[it]}" for it in OF_ACTION.get(self.action, ()) if it in self.flags]
        return " ".join([self.kind, "--workflow", self.workflow, self.action, *flags])

    @property
    def not_shown(self) -> list[str]:
        """Flags and words that have no meaning here."""
        meant = (*OF_WORKFLOW, *OF_CLUSTER, *OF_ACTION.get(self.action, ()))
        return [*(f"--{it}" for it in self.flags if it not in meant), *self.left]

    @property
    def departures(self) -> list[str]:
        """What the cluster does otherwise by flags that have no meaning here."""
        return [f"--{it}: {DEPARTS[it]}" for it, value in self.flags.items() if it in DEPARTS and value != WITHOUT_EFFECT.get(it, "false")]

    @property
    def workflow(self) -> str:
        """The name of the workflow."""
        return self.flags["workflow"]

    @property
    def target(self) -> str:
        """The target keyspace."""
        return self.flags["target-keyspace"]

    @property
    def source(self) -> str:
        """Of a `create`: the source keyspace."""
        return self.flags["source-keyspace"]

    @property
    def types(self) -> str:
        """Of a switch or a reversal: the tablet types, as a line of the program has them."""
        return self.flags.get("tablet-types", "all").replace(" ", "").lower().replace("master", "primary")

    @property
    def names(self) -> list[str]:
        """All names that go into lines of the program."""
        of_create = [self.source, *self.named("tables"), *self.named("exclude-tables")] if self.action == CREATE else [self.types]
        return [self.workflow, self.target, *of_create]

    def named(self, flag: str) -> list[str]:
        """The names of a list behind a flag."""
        return [it.strip() for it in self.flags.get(flag, "").split(",") if it.strip()]


def read_plan(folder: pathlib.Path) -> list[Command]:
    """The commands of plan.txt; raises `CannotRehearse`, with the line, where one can't be read or lacks a flag that it needs."""
    found = [(line, words) for line, text in _logical_lines(read_text(folder / PLAN)) for words in _split(line, text)]
    commands = [_command(number, line, words) for number, (line, words) in enumerate(found, 1)]
    if not commands:
        raise CannotRehearse(f"{PLAN}: has no command")
    targets = {it.workflow: it for it in reversed(commands) if it.is_rehearsed and it.action == CREATE}
    for it in filter(lambda it: it.is_rehearsed, commands):
        _require_workflow(it, targets)
    return commands


def _require_workflow(command: Command, created: Mapping[str, Command]) -> None:
    """Raises `CannotRehearse` if mt can't tell which workflow a command is of; the first `create` of each is given."""
    where = f"{PLAN}: line {command.line}"
    first = created.get(command.workflow)
    if not first:
        complaint = f"no command of the plan creates the workflow {command.workflow}"
        raise CannotRehearse(f"{where}: {complaint}. A move that is under way can't be represented: put its create before")
    if first.target != command.target:
        complaint = f"the workflow {command.workflow} is of {first.target} in line {first.line} and of {command.target} here"
        raise CannotRehearse(f"{where}: {complaint}, and a name stands for one workflow in mt, whatever its target")
    bad = next((it for it in command.names if not WORD.fullmatch(it)), None)
    if bad is not None:
        raise CannotRehearse(f"{where}: {bad!r} is no name: mt's are of visible ASCII characters")


def _logical_lines(text: str) -> Iterator[tuple[int, str]]:
    """The lines that aren't blank and no comments, each with those that a `\\` at its end joins to it, and the number of its first one."""
    joined, first = "", 0
    for number, line in enumerate([*text.split("\n"), ""], 1):
        line = line.rstrip("\r")
        first = first or number
        if line.rstrip().endswith("\\"):
            joined += line.rstrip()[:-1] + " "
            continue
        whole = (joined + line).strip()
        if whole and not whole.startswith("#"):
            yield first, whole
        joined, first = "", 0


def _split(number: int, line: str) -> list[list[str]]:
    """The words of each command of a line."""
    reader = shlex.shlex(line, posix=True, punctuation_chars=True)
    reader.whitespace_split = True
    reader.commenters = ""
    commands: list[list[str]] = [[]]
    try:
        for word in reader:
            if word.startswith("#"):
                break
            commands += [[]] if word in BETWEEN else []
            commands[-1] += [word] if word not in BETWEEN else []
    except ValueError as error:
        raise CannotRehearse(f"{PLAN}: line {number}: {error}") from error
    return [words for words in commands if words]


def _command(number: int, line: int, words: list[str]) -> Command:
    """A command from its words; the program's own name, and what stands before it, count for nothing."""
    names = [at for at, word in enumerate(words) if pathlib.PurePath(word).name == "vtctldclient"]
    if not names and not KINDS.fullmatch(words[0]):
        return Command(number, line, tuple(words), "", "", {}, ())
    words = words[names[0] + 1 :] if names else words
    flags, plain = _flags(words)
    command = Command(number, line, tuple(words), "".join(plain[:1]), "".join(plain[1:2]).lower(), flags, tuple(plain[2:]))
    needed = (*OF_WORKFLOW, "source-keyspace") if command.action == CREATE else OF_WORKFLOW
    missing = [it for it in needed if not flags.get(it)] if command.is_rehearsed else []
    if missing:
        raise CannotRehearse(f"{PLAN}: line {line}: {MOVE_TABLES} {command.action} needs --{missing[0]}")
    return command


def _flags(words: list[str]) -> tuple[dict[str, str], list[str]]:
    """The flags with their values (`true` of one that stands alone), and the other words."""
    flags, plain, rest = {}, [], list(words)
    while rest:
        word = rest.pop(0)
        if not word.startswith("-") or len(word) < 2:
            plain.append(word)
            continue
        name, equals, value = word.lstrip("-").partition("=")
        name = SHORT.get(name, name.replace("_", "-"))
        if not equals:
            takes_one = name not in ALONE and bool(rest) and not rest[0].startswith("--")
            value = rest.pop(0) if takes_one else "true"
        flags[name] = value
    return flags, plain
