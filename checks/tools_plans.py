"""Random clusters with random plans, always the same ones, for tools/rehearse; and what a rehearsal of one tells, asked of the program itself."""
from __future__ import annotations

import json
import pathlib
import random
import tempfile
from collections.abc import Iterable

from mt_rehearsal.rehearse import rehearse_folder
from mt_rehearsal.report import CommandReport, Report, WayBack
from mt_runs.program import Program

SOURCE, OTHERS = "commerce", ("customer", "us-east_2")
TABLES = ("corder", "cart", "a-b$1", "_items")
CUTS = ["", *(f"{at:x}0" for at in range(1, 16)), ""]
SHARDS = {1: ["0"], 2: ["-80", "80-"], 4: ["-40", "40-80", "80-c0", "c0-"], 16: [f"{start}-{end}" for start, end in zip(CUTS, CUTS[1:])]}
TYPES = ("", "", "", "", "--tablet-types primary", "--tablet-types replica,rdonly", "--tablet-types rdonly", "--tablet-types primary,replica")
# What may follow a create or a reversal, and a switch.
BEFORE = ("switchtraffic",) * 5 + ("reversetraffic", "cancel", "complete")
BEHIND = ("switchtraffic", "switchtraffic", "reversetraffic", "reversetraffic", "reversetraffic", "complete", "complete", "cancel")


class Drawn:
    """A cluster and a plan, drawn by a number."""

    def __init__(self, number: int) -> None:
        self.draw = random.Random(number)
        self.files: dict[str, object] = {}
        self.targets = {name: self.draw.choice(OTHERS) for name in ("w1", "w2")}
        # w3 brings back what w1 moved
        self.targets["w3"] = SOURCE
        self.sources = {"w1": SOURCE, "w2": SOURCE, "w3": self.targets["w1"]}
        self.shards: dict[str, list[str]] = {}
        self.files[f"{SOURCE}.vschema.json"] = self.vschema(TABLES, SHARDS[1])
        for name in OTHERS:
            shards = self.shards[name] = SHARDS[self.draw.choice([1, 1, 1, 2, 2, 4, 16])]
            listed = [it for it in TABLES if self.draw.random() < 0.3]
            self.files[f"{name}.vschema.json"] = self.vschema(listed, shards)
            self.files[f"{name}.shards.json"] = {it: {"shard": {"isPrimaryServing": True}} for it in shards}
            if self.draw.random() < 0.5:
                there = [it for it in TABLES if self.draw.random() < 0.05]
                self.files[f"{name}.schema.json"] = {"tableDefinitions": [{"name": it} for it in there]}
        self.files["routing_rules.json"] = {"rules": [{"fromTable": key, "toTables": [to]} for key, to in self.rules().items()]}
        self.plan = self.commands()

    def vschema(self, tables: Iterable[str], shards: list[str]) -> dict:
        """A keyspace's VSchema."""
        return {"sharded": len(shards) > 1, "tables": {it: {} for it in tables}, "require_explicit_routing": self.draw.random() < 0.5}

    def rules(self) -> dict[str, str]:
        """A few rules: of a table's own names, of others that lead to it, and ones that keep it from being moved."""
        found = {}
        for _ in range(self.draw.randrange(5)):
            table = self.draw.choice(TABLES)
            name = self.draw.choice([table, f"{SOURCE}.{table}", f"old.{table}", f"{table}_2", f"{OTHERS[0]}.{table}"])
            keyspace = SOURCE if self.draw.random() < 0.93 else self.draw.choice(OTHERS)
            found[name + self.draw.choice(["", "", "@primary", "@replica", "@rdonly"])] = f"{keyspace}.{table}"
        return found

    def commands(self) -> list[str]:
        """A create of each workflow, at first or behind other commands, and some commands on them."""
        tables = list(TABLES)
        self.draw.shuffle(tables)
        lists = {"w1": tables[: self.draw.randint(1, 2)], "w2": tables[self.draw.randint(1, 2) :][:2]}
        lists["w3"] = lists["w1"]
        last = {"w1": "create"}
        found = [self.create("w1", lists["w1"])]
        for _ in range(self.draw.randint(1, 5)):
            is_back = last["w1"] == "complete" and len(self.shards[self.targets["w1"]]) == 1
            workflow = self.draw.choice(["w3"] if is_back else ["w1", "w1", "w2"])
            action = self.draw.choice(BEHIND if last.get(workflow) == "switchtraffic" else BEFORE)
            if workflow not in last or self.draw.random() < 0.1:
                action = "create"
            last[workflow] = action
            types = self.draw.choice(TYPES) if action.endswith("traffic") else ""
            named = f"MoveTables --workflow {workflow} --target-keyspace {self.targets[workflow]} {action} {types}"
            found.append(self.create(workflow, lists[workflow]) if action == "create" else named)
        return found

    def create(self, workflow: str, tables: list[str]) -> str:
        """A command that creates a workflow."""
        named = f"MoveTables --workflow {workflow} --target-keyspace {self.targets[workflow]}"
        return f"{named} create --source-keyspace {self.sources[workflow]} --tables {','.join(tables)}"

    def write(self, folder: pathlib.Path) -> None:
        """Writes the documents and the plan."""
        for name, document in self.files.items():
            (folder / name).write_text(json.dumps(document))
        (folder / "plan.txt").write_text("".join(f"{it}\n" for it in self.plan))


def complaints(program: str, number: int) -> list[str]:
    """What a rehearsal of a drawn plan tells that isn't so; or that it ended otherwise than with a report."""
    drawn = Drawn(number)
    with tempfile.TemporaryDirectory() as room:
        drawn.write(pathlib.Path(room))
        try:
            report = rehearse_folder(pathlib.Path(room), program)
        except Exception as error:  # whatever it is, no plan may lead to it
            return [f"plan {number}: {type(error).__name__}: {error}\n    " + "\n    ".join(drawn.plan)]
    told = Told(program, report)
    found = [it for command in report.commands for it in told.complaints(command)]
    return [f"plan {number}: {it}\n    " + "\n    ".join(drawn.plan) for it in found]


class Told:
    """A report beside the program, which is asked again for what it tells."""

    def __init__(self, program: str, report: Report) -> None:
        self.program, self.report = Program(program, report.watchers), report
        begins = next((at for at, line in enumerate(report.script) if line.startswith("create ")), len(report.script))
        self.ends = {0: begins, **{it.number: it.script_lines for it in report.commands}}

    def dump(self, lines: int, more: list[str]) -> dict:
        """The topology behind so many lines of the script and some more."""
        return json.loads(self.program.answers([*self.report.script[:lines], *more, "dump"])[-1])

    def complaints(self, command: CommandReport) -> list[str]:
        """What is told of a command that isn't so."""
        if command.outcome != "done":
            return []
        found = [f"command {command.number}: {', '.join(way.commands)} doesn't return" for way in command.ways_back if not self.returns(command, way)]
        bad = [it.name for it in command.steps if it.undo and it.undo.answer != "refused F19 PastJournal" and not it.undo.is_as_before]
        found += [f"command {command.number}: the undo behind {it} doesn't return" for it in bad]
        asked = [(it.name, kind, place, met) for it in command.queries for kind, by_shard in it.reached.items() for place, met in enumerate(by_shard.values())]
        keys = [int(line.split()[3]) for line in self.report.script if line.startswith("at ") and line.split()[1] == f"{command.source}.{command.tables[0]}"]
        answers = self.program.ask(self.report.script[: command.script_lines], [f"get {name}@{kind} {keys[place]}" for name, kind, place, _ in asked])
        wrong = [it for it, answer in zip(asked, answers) if it[3].is_served == answer.startswith("refused")]
        return found + [f"command {command.number}: a query by {name}@{kind} is told as {met.answer}" for name, kind, _, met in wrong]

    def returns(self, command: CommandReport, way: WayBack) -> bool:
        """Whether a way back that is told leads where it is told to."""
        if way.answer != "ok":
            return command.has_ended and way.answer == "refused F7 NoWorkflow"
        if way.same_as is None:
            return False
        lines = [self.line(command, it) for it in way.commands]
        here, there = self.dump(command.script_lines, lines), self.dump(self.ends[way.same_as.command - 1], [])
        return here == there if way.same_as.is_whole else self.part(command, here) == self.part(command, there)

    @staticmethod
    def line(command: CommandReport, way: str) -> str:
        """The line of a command of a way back."""
        name, _, types = way.partition(" --tablet-types ")
        return f"cancel {command.workflow}" if name == "cancel" else f"reverse {command.workflow} {types or 'all'}"

    @staticmethod
    def part(command: CommandReport, dump: dict) -> tuple:
        """The move's part of a topology."""
        names = {name for it in command.tables for name in (it, f"{command.source}.{it}", f"{command.target}.{it}")}
        rules = [it for it in dump["rules"] if it["from_table"].partition("@")[0] in names]
        tables = [it for keyspace in dump["keyspaces"] if keyspace["name"] == command.target for it in keyspace["tables"] if it in command.tables]
        return rules, [it for it in dump["denied"] if it in names], tables
