"""The first lines of the script: the cluster as its documents tell of it, and a sample row for each shard of each table that moves."""
from __future__ import annotations

from collections.abc import Iterator, Mapping, Sequence
from dataclasses import dataclass

from mt_rehearsal.cluster import PLAN, Cluster, Keyspace
from mt_rehearsal.commands import CREATE, WORD, Command
from mt_rehearsal.documents import CannotRehearse
from mt_rehearsal.moved import Moved
from mt_rehearsal.report import Report, Warned
from mt_rehearsal.session import Session
from mt_runs.program import MOST_WATCHERS, is_refused
from mt_runs.refusals import ScriptPage
from mt_runs.shards import first_key, is_range

MOST_SHARDS, MOST_TABLES = 8, 256


@dataclass(frozen=True)
class Line:
    """The words of a line, and what in the documents it stands for. One on which nothing depends may fail: what it stands for is left out then."""

    words: tuple[str, ...]
    what: str
    may_fail: bool = False

    @property
    def text(self) -> str:
        """The line as the program reads it."""
        return " ".join(self.words)


class Beginning:
    """What of a cluster is rehearsed: the keyspaces of the plan and those that rules lead to first, and of the others as many as there is room for."""

    def __init__(self, cluster: Cluster, plan: Sequence[Command], report: Report) -> None:
        self.cluster, self.report = cluster, report
        self.creates = [it for it in plan if it.is_rehearsed and it.action == CREATE]
        self.keyspaces = self._chosen()
        self.shards = {it.name: self._shards(it) for it in self.keyspaces}
        self.tables = {it.name: self._present_tables(it) for it in self.keyspaces}
        self.moves = {it.number: self._moved(it) for it in self.creates}

    def keyspace(self, name: str) -> Keyspace:
        """A keyspace of those that are rehearsed."""
        return next(it for it in self.keyspaces if it.name == name)

    def build(self, session: Session, page: ScriptPage) -> None:
        """Takes the lines; raises `CannotRehearse` if the program refuses one that something depends on."""
        lines = [it for it in (*self._keyspace_lines(), *self._rule_lines(), *self._row_lines()) if self._is_readable(it)]
        for line, answer in zip(lines, session.take([it.text for it in lines])):
            if is_refused(answer):
                refusal = page.refusal_of(answer)
                self._refuse(line, f"`{line.text}` is answered `{answer}`{': ' + refusal.when if refusal else ''}")

    def _is_readable(self, line: Line) -> bool:
        """Whether each word of a line is one to the program; if not, it is refused."""
        is_readable = all(map(WORD.fullmatch, line.words))
        if not is_readable:
            self._refuse(line, "a name has something else than visible ASCII characters, of which mt's are made")
        return is_readable

    def _refuse(self, line: Line, why: str) -> None:
        """Leaves out what a line stands for if nothing depends on it, or else raises `CannotRehearse`."""
        if not line.may_fail:
            raise CannotRehearse(f"{line.what}: {why}")
        self.report.warn([Warned("left out", f"{line.what} is left out: {why}")])

    def _chosen(self) -> list[Keyspace]:
        """The keyspaces that are rehearsed, in the order in which the plan and the rules name them."""
        there = {name: it for name, it in self.cluster.keyspaces.items() if it.is_told}
        sides = [(side, command.line) for command in self.creates for side in (command.source, command.target)]
        untold, line = next((it for it in sides if it[0] not in there), ("", 0))
        if line:
            raise CannotRehearse(f"{PLAN}: line {line}: no document tells of the keyspace {untold}, as {untold}.vschema.json would")
        led_to = [target.partition(".")[0] for rule in self.cluster.rules for target in rule.targets]
        strange = dict.fromkeys(it for it in led_to if it not in there)
        self.report.warn(Warned("document", f"no document tells of the keyspace {it}, to which a rule leads: it is taken as not there") for it in strange)
        order = [it for it in dict.fromkeys([*(side for side, _ in sides), *led_to, *there]) if it in there]
        if len({side for side, _ in sides}) > MOST_WATCHERS:
            raise CannotRehearse(f"{PLAN}: its moves are of more than {MOST_WATCHERS} keyspaces, for which mt has room")
        if len(order) > MOST_WATCHERS:
            self.report.warn([Warned("left out", f"keyspaces are left out, as mt has room for {MOST_WATCHERS}: {', '.join(order[MOST_WATCHERS:])}")])
        return [there[name] for name in order[:MOST_WATCHERS]]

    def _shards(self, keyspace: Keyspace) -> dict[str, str]:
        """The key ranges of a keyspace as they are rehearsed, in their order, each with its name in Vitess."""
        name, shards = keyspace.name, keyspace.shards
        if shards is None:
            if keyspace.is_sharded or keyspace.is_sharded is None:
                why = f"{name}.vschema.json says that it is sharded" if keyspace.is_sharded else f"there is no {name}.vschema.json"
                raise CannotRehearse(f"{name}.shards.json is missing, and {why}")
            return {"-": "-"}
        bad = next((it for it in shards if not is_range(it.keys)), None)
        if bad:
            raise CannotRehearse(f"{name}.shards.json: {bad.name} is no key range that mt reads, 0 to 8 whole bytes on each side of a `-`")
        if len(shards) > 1 and keyspace.is_sharded is False:
            raise CannotRehearse(f"{name}.shards.json has {len(shards)} shards, and {name}.vschema.json says that it isn't sharded")
        found = {it.keys: it.name for it in sorted(shards, key=lambda it: first_key(it.keys))}
        return found if len(found) <= MOST_SHARDS else self._joined(name, found)

    def _joined(self, name: str, found: Mapping[str, str]) -> dict[str, str]:
        """So many neighbours each as one shard that there is room for all."""
        ranges = list(found)
        each = -(-len(ranges) // MOST_SHARDS)
        groups = [ranges[at : at + each] for at in range(0, len(ranges), each)]
        told = f"{name} has {len(ranges)} shards, and mt takes {MOST_SHARDS}"
        self.report.warn([Warned("shards", f"{told}: up to {each} neighbours are rehearsed as one, as all go through the same steps")])
        return {f"{it[0].partition('-')[0]}-{it[-1].partition('-')[2]}": it[0] if len(it) == 1 else f"{it[0]}..{it[-1]}" for it in groups}

    def _moved(self, command: Command) -> Moved:
        """What a `create` of the plan moves; raises `CannotRehearse` where the documents don't tell it, or it can't be represented."""
        source, target = self.keyspace(command.source), self.keyspace(command.target)
        where = f"{PLAN}: line {command.line}"
        if len(self.shards[source.name]) > 1:
            count = len(source.shards or ())
            raise CannotRehearse(f"{where}: the source {source.name} has {count} shards, and mt moves tables out of a keyspace of one shard alone")
        tables = tuple(self._tables(command, source))
        for keyspace in (source, target):
            self._require_no_denials(where, keyspace, tables)
        shards = self.shards[target.name]
        keys = {shard: first_key(shard) for shard in shards}
        aliases = {it: self._aliases(it, source.name, target.name) for it in tables}
        source_shard = next(iter(self.shards[source.name].values()))
        return Moved(command.workflow, source.name, target.name, tables, shards, keys, source_shard, aliases)

    def _tables(self, command: Command, source: Keyspace) -> Iterator[str]:
        """The tables of a `create`, each once."""
        is_all = "all-tables" in command.flags
        if is_all and source.present is None:
            told = f"command {command.number} moves all tables of {source.name}: taken as those of its VSchema"
            self.report.warn([Warned("document", f"{told}, as there is no {source.name}.schema.json that says which tables are there")])
        made = {table for it in self.creates if it.number < command.number and it.target == source.name for table in it.named("tables")}
        asked = source.tables if is_all else command.named("tables")
        for table in dict.fromkeys(it for it in asked if it not in command.named("exclude-tables")):
            if source.present is None and table not in (*(source.listed or ()), *made):
                told = f"{source.name}.vschema.json doesn't list {table}, and there is no {source.name}.schema.json that says which tables are there"
                raise CannotRehearse(f"{PLAN}: line {command.line}: {told}")
            yield table

    def _require_no_denials(self, where: str, keyspace: Keyspace, tables: Sequence[str]) -> None:
        """Raises `CannotRehearse` if a shard denies a table that moves; of others it is told that their denials are left out."""
        for shard in keyspace.shards or ():
            denied = {table for control in shard.controls for table in control.tables}
            moved = sorted(denied & set(tables))
            if moved:
                told = f"{keyspace.name}.shards.json: {shard.name} denies {', '.join(moved)} already, which moves by {where}"
                raise CannotRehearse(f"{told}. A move that is under way can't be represented, and neither can a denial by hand")

    def _aliases(self, table: str, source: str, target: str) -> tuple[str, ...]:
        """The names of hand-made rules that lead to a table at either side and aren't its own."""
        sides = (f"{source}.{table}", f"{target}.{table}")
        names = (rule.key.partition("@")[0] for rule in self.cluster.rules if set(rule.targets) & set(sides))
        return tuple(dict.fromkeys(it for it in names if it not in (table, *sides)))

    def _keyspace_lines(self) -> Iterator[Line]:
        for keyspace in self.keyspaces:
            name, shards = keyspace.name, ",".join(self.shards[keyspace.name])
            yield Line(("keyspace", name) if shards == "-" else ("keyspace", name, shards), f"the keyspace {name}")
            needed, others = self._tables_of(keyspace)
            yield from (Line(("table", name, it), f"the table {name}.{it}", it in others) for it in (*needed, *others))

    def _present_tables(self, keyspace: Keyspace) -> tuple[str, ...]:
        """The tables of a keyspace that are there before the plan. Where no document says so, those that its VSchema lists, but for those that a move of
        the plan is to make: the first move that has the table goes to this keyspace."""
        if keyspace.present is not None:
            return keyspace.present
        firsts: dict[str, Command] = {}
        for command, table in ((it, table) for it in self.creates if keyspace.name in (it.source, it.target) for table in it.named("tables")):
            firsts.setdefault(table, command)
        # a move of all tables names none of them
        is_made = any(it.target == keyspace.name and "all-tables" in it.flags for it in self.creates)
        listed = keyspace.listed or ()
        return tuple(it for it in listed if (firsts[it].target != keyspace.name if it in firsts else not is_made))

    def _tables_of(self, keyspace: Keyspace) -> tuple[list[str], list[str]]:
        """The tables of a keyspace on which the rehearsal depends, and the others as far as there is room."""
        made = {table for it in self.moves.values() if it.target == keyspace.name for table in it.tables}
        moved = {table for it in self.moves.values() for table in it.tables}
        tables = self.tables[keyspace.name]
        needed, others = [it for it in tables if it in moved], [it for it in tables if it not in moved]
        room = MOST_TABLES - len(needed) - len(made)
        if len(others) > room:
            told = f"{len(others) - room} tables of {keyspace.name} that don't move are left out, as mt has room for {MOST_TABLES}"
            self.report.warn([Warned("left out", told)])
        return needed, others[: max(room, 0)]

    def _rule_lines(self) -> Iterator[Line]:
        seen: set[str] = set()
        for rule in self.cluster.rules:
            if len(rule.targets) != 1:
                raise CannotRehearse(f"{rule.place}: the rule of {rule.key} has {len(rule.targets) or 'no'} targets, and mt takes one")
            if rule.key in seen:
                raise CannotRehearse(f"{rule.place}: another rule has the key {rule.key} too")
            if "." not in rule.targets[0]:
                raise CannotRehearse(f"{rule.place}: the target {rule.targets[0]} of {rule.key} names no keyspace")
            seen.add(rule.key)
            yield Line(("rule", rule.key, rule.targets[0]), rule.place)

    def _row_lines(self) -> Iterator[Line]:
        """A row for each shard of each target to which a table moves, at each source where it is there."""
        keys = [(table, key) for it in self.moves.values() for table in it.tables for key in it.keys.values()]
        sources = [(it.source, table) for it in self.moves.values() for table in it.tables if table in self.tables[it.source]]
        for source, table, key in dict.fromkeys((source, table, key) for source, table in sources for of, key in keys if of == table):
            yield Line(("at", f"{source}.{table}", "insert", str(key), "sample"), f"a sample row of {source}.{table}")
