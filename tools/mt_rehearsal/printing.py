"""A report as text."""
from __future__ import annotations

import json
import re
from collections.abc import Iterable, Iterator, Mapping, Sequence

from mt_rehearsal.report import (
    CAN_RUN,
    DONE,
    PASSED_OVER,
    REFUSED,
    SHOWN,
    ByShard,
    CommandReport,
    Departure,
    Query,
    Reached,
    Report,
    RuleChange,
    SameAs,
    StepShown,
    Undo,
    WayBack,
)
from mt_runs.show import TYPES
from mt_runs.words import counted, entries

AllShards = Mapping[str, Sequence[str]]  # the names of each keyspace's shards
ANY = "TABLE"  # in the place of a table's name, where all tables of a move behave alike
SHORT = {"F3 Denied": "refused", "T2 NoTable": "no such table", "T3 Ambiguous": "ambiguous"}
INDENT, LABEL = " " * 4, 16
QUERY_HEADS = ("by name", "writes, primary reads", "replica", "rdonly")
STEP_HEADS = ("inside this command", "by name: writes", "replica", "rdonly", "primaries that refuse", "if it fails here", "waited for")


def text_of(report: Report, with_rules: bool) -> Iterator[str]:
    """The lines of a report; with all routing rules behind each command if they are asked for."""
    if report.commands:
        keyspaces = ", ".join(f"{name} ({', '.join(shards)})" for name, shards in report.shards.items())
        yield f"Rehearsal of {len(report.commands)} commands, over {len(report.shards)} keyspaces: {keyspaces}"
        yield ""
    for command in report.commands:
        yield f"{command.number}. {command.text}"
        yield from _of_command(command, report.shards, with_rules)
        yield ""
    if report.warnings:
        yield "Look at these before you begin"
        yield from (f"  - {it.text}" for it in report.warnings)
        yield ""
    yield from _verdict(report)


def _verdict(report: Report) -> Iterator[str]:
    if report.problems:
        yield "NOT AS PLANNED"
        yield from (f"  - {it}" for it in report.problems)
    if report.cannot:
        yield f"CAN'T BE REHEARSED: {report.cannot}"
    if report.status == CAN_RUN:
        passed_over = [str(it.number) for it in report.commands if it.outcome == PASSED_OVER]
        yield f"The plan can be run as it is{'; passed over: ' if passed_over else ''}{', '.join(passed_over)}"


def _labelled(label: str, lines: Iterable[str]) -> Iterator[str]:
    """Lines of which the first has a label before it."""
    for line in lines:
        yield f"{INDENT}{label:{LABEL}}{line}".rstrip()
        label = ""


def _of_command(command: CommandReport, shards: AllShards, with_rules: bool) -> Iterator[str]:
    if command.outcome == PASSED_OVER:
        yield from _labelled("passed over", ["a dry run, which changes nothing" if command.is_dry_run else "mt has nothing for this command"])
    yield from _labelled("not shown", [f"{', '.join(command.not_shown)}: mt has nothing for it"] if command.not_shown else [])
    if command.outcome == SHOWN:
        yield from _labelled("mt show", [command.answer or ""])
    if command.outcome == REFUSED:
        yield from _labelled("REFUSED", _refused(command))
    if command.copied:
        rows = counted(command.copied.rows, "sample row", "sample rows")
        yield from _labelled("mt", [f"ok; then the streams copied {rows} and read {entries(command.copied.entries)}"])
    yield from _steps(command, shards)
    if command.outcome == DONE:
        yield from _outcome(command)
    if with_rules and command.outcome != PASSED_OVER:
        document = {"rules": [{"from_table": key, "to_tables": [target]} for key, target in command.all_rules.items()]}
        yield from _labelled("GetRoutingRules", json.dumps(document, indent=2).split("\n"))
    if command.departures is not None:
        yield from _labelled("the cluster", map(_departure, command.departures) if command.departures else ["as rehearsed"])


def _refused(command: CommandReport) -> Iterator[str]:
    yield (command.answer or "").partition(" ")[2]
    if command.refused:
        yield f"when: {command.refused.when}"
        yield f"do: {command.refused.what_to_do}"
    yield from (f"the rule is {it.key} -> {it.target}; it would have to lead to {it.wanted}" for it in command.conflicts)
    if command.without_conflicts:
        yield f"without {'it' if len(command.conflicts) == 1 else 'them'} create is answered (tried): {command.without_conflicts}"


def _outcome(command: CommandReport) -> Iterator[str]:
    """What a command that was done changed, and what is so behind it."""
    yield from _labelled("routing rules", _rules(command.rules, command.tables))
    yield from _labelled("denied tables", _denied(command))
    yield from _labelled("tables dropped", [", ".join(command.dropped)] if command.dropped else [])
    if command.same_as:
        yield from _labelled("topology", [_same_as(command.same_as)])
    yield from _labelled("queries", _queries(command.queries))
    yield from _labelled("ways back", _ways_back(command))


def _departure(it: Departure) -> str:
    known = f" (known: {it.known})" if it.known else ""
    return f"{it.what}: the cluster has {it.cluster}, the rehearsal {it.rehearsal}{known}"


# ---- rules and denials


def _general(text: str, table: str) -> str:
    """A name or a key with `TABLE` for the table's."""
    return re.sub(rf"(^|\.){re.escape(table)}(?=@|$)", rf"\g<1>{ANY}", text)


def _rules(changes: Sequence[RuleChange], tables: Sequence[str]) -> list[str]:
    """The changes by what becomes of a rule; what is the same of each table is told once."""
    lines: dict[tuple[int, str], list[str]] = {}
    for it in _told_once(changes, tables):
        lines.setdefault(_becomes(it), []).append(it.key)
    told = [f"{'~+-'[order]} {', '.join(sorted(keys))}{becomes}" for (order, becomes), keys in sorted(lines.items())]
    head = [f"({ANY}: each of {', '.join(tables)})"] if len(tables) > 1 and any(ANY in it for it in told) else []
    return head + (told or ["no change"])


def _told_once(changes: Sequence[RuleChange], tables: Sequence[str]) -> list[RuleChange]:
    """The changes, those that are the same of each table as one, of `TABLE`."""
    alike: dict[RuleChange, list[RuleChange]] = {}
    for it in changes:
        table = _table_of(it.key, tables)
        general = RuleChange(*(_general(text, table) if text and table else text for text in (it.key, it.was, it.now)))
        alike.setdefault(general, []).append(it)
    return [one for general, them in alike.items() for one in ([general] if len(them) == len(tables) > 1 else them)]


def _table_of(key: str, tables: Sequence[str]) -> str | None:
    """The table of a move whose name a key is of, whatever its keyspace and type."""
    name = key.partition("@")[0]
    return next((it for it in tables if name in (it, f"{name.partition('.')[0]}.{it}")), None)


def _becomes(it: RuleChange) -> tuple[int, str]:
    """What becomes of a rule, in the order in which it is told: it is changed, made, or taken away."""
    if it.was and it.now:
        return 0, f" -> {it.now}   (was {it.was})"
    return (1, f" -> {it.now}") if it.now else (2, f" -> {it.was}")


def _denied(command: CommandReport) -> Iterator[str]:
    for it in command.denied:
        control = json.dumps([{"tablet_type": "PRIMARY", "denied_tables": list(it.tables)}] if it.tables else [])
        others = " and of each other shard" if len(it.shards) > 1 else ""
        yield f'GetShard {it.keyspace}/{it.shards[0]}{others}: "tablet_controls": {control}'


# ---- queries


def _met(reached: Reached) -> str:
    """What a query met, in a word or two."""
    keyspace = (reached.place or "").partition(".")[0]
    if reached.is_served:
        return keyspace
    missing = {"F1 NoKeyspace": f"no keyspace {keyspace}", "F2 NoTable": f"no table {reached.place}"}
    return missing.get(reached.answer) or SHORT.get(reached.answer, reached.answer)


def _cell(by_shard: ByShard) -> str:
    """What queries met: one word if it is the same in each shard, or else each with its shards."""
    shards: dict[str, list[str]] = {}
    for shard, reached in by_shard.items():
        shards.setdefault(_met(reached), []).append(shard)
    return next(iter(shards)) if len(shards) == 1 else "; ".join(f"{word}: {' '.join(them)}" for word, them in shards.items())


def _cells(query: Query) -> tuple[str, ...]:
    return tuple(_cell(query.reached[it]) for it in TYPES)


def _queries(found: Sequence[Query]) -> list[str]:
    """A row for each name; those of tables that behave alike stand in one."""
    alike: dict[tuple[str, ...], list[Query]] = {}
    for it in found:
        general = tuple(_general(cell, it.table) for cell in _cells(it))
        alike.setdefault((_general(it.name, it.table), *general), []).append(it)
    rows = [(", ".join(it.name for it in them), *(general[1:] if len(them) > 1 else _cells(them[0]))) for general, them in alike.items()]
    return _columns([QUERY_HEADS, *rows])


def _columns(rows: Sequence[Sequence[str]]) -> list[str]:
    widths = [max(map(len, column)) for column in zip(*rows)]
    return ["  ".join(map(str.ljust, row, widths)).rstrip() for row in rows]


# ---- steps and ways back


def _steps(command: CommandReport, shards: AllShards) -> Iterator[str]:
    """A row for each step, and a line below the journal."""
    if not command.steps:
        return
    lines = _columns([STEP_HEADS, *(_step_row(it, shards) for it in command.steps)])
    yield INDENT + lines[0]
    for line, step in zip(lines[1:], command.steps):
        yield INDENT + line
        if step.is_journal:
            yield INDENT + "-" * max(map(len, lines))


def _step_row(step: StepShown, shards: AllShards) -> tuple[str, ...]:
    name = step.name if step.place is None else f"{step.place:2} {step.name}"
    cells = [_merged(column) for column in zip(*map(_cells, step.queries))]
    waited = "" if step.entries is None else entries(step.entries)
    return (name, *cells, _refusing(step, shards), _undo(step.undo), waited)


def _merged(cells: Iterable[str]) -> str:
    """What queries of all tables of a move met."""
    return " | ".join(dict.fromkeys(cells))


def _refusing(step: StepShown, shards: AllShards) -> str:
    """The shards whose primary refuses clients, with the tables where it isn't all of them; `*` are all shards of several."""
    tables = tuple(it.table for it in step.queries)
    words = []
    for keyspace, refusing in step.refusing.items():
        named = [shard if refused == tables else f"{shard}({' '.join(refused)})" for shard, refused in refusing.items()]
        words.append(f"{keyspace}/{'*' if named == list(shards[keyspace]) and len(named) > 1 else ','.join(named)}")
    return " ".join(words) or "none"


def _undo(undo: Undo | None) -> str:
    if undo is None:
        return "done"
    if undo.answer == "refused F19 PastJournal":
        return "only forward: run it again"
    if undo.answer != "ok":
        return f"undo: {undo.answer}"
    return "undo: all as before (tried)" if undo.is_as_before else "undo: THE TOPOLOGY DIFFERS (tried)"


def _same_as(same: SameAs | None) -> str:
    if same is None:
        return "THE TOPOLOGY DIFFERS FROM ALL BEFORE"
    if same.is_whole:
        return f"exactly as before command {same.command}"
    return f"the move's part exactly as before command {same.command}, the rest as it is now"


def _ways_back(command: CommandReport) -> Iterator[str]:
    if command.has_ended:
        tried = "".join(f"; {_way_back(it)}" for it in command.ways_back)
        yield f"none: the move has ended{tried}"
        return
    yield from map(_way_back, command.ways_back)


def _way_back(way: WayBack) -> str:
    return f"{', '.join(way.commands)}: tried, {_same_as(way.same_as) if way.answer == 'ok' else way.answer}"
