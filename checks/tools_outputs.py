"""The rehearsals of checks/rehearsals: their outputs, their documents and their scripts, and the command line of tools/rehearse."""
from __future__ import annotations

import difflib
import functools
import json
import pathlib
import re
import shutil
import subprocess
import sys
import tempfile
from collections.abc import Iterator

from mt_rehearsal.printing import text_of
from mt_rehearsal.rehearse import rehearse_folder
from mt_rehearsal.report import Report, as_document
from mt_runs.program import Program

TOP = pathlib.Path(__file__).resolve().parent.parent
REHEARSALS = TOP / "checks/rehearsals"
REHEARSE = [sys.executable, str(TOP / "tools/rehearse")]
PAGE = TOP / "docs/REHEARSE.md"
OPERATING = TOP / "docs/OPERATING.md"
KINDS = "KEYSPACE.vschema.json, KEYSPACE.shards.json or KEYSPACE.schema.json"
VERDICTS = {0: "The plan can be run as it is", 1: "NOT AS PLANNED", 2: "CAN'T BE REHEARSED"}
# Members whose own are names of the cluster.
BY_NAME = ("shards", "reached", "refusing", "all_rules")


# What can't be represented: the files that are other ones in checks/rehearsals/one_table, and what is told.
REFUSED: list[tuple[dict[str, str], str]] = [
    ({"routing_rules.json": '{"rules":[{"from_table":"a","to_tables":["b.c","d.e"]}]}'}, "routing_rules.json: rules[0]: the rule of a has 2 targets"),
    ({"routing_rules.json": '{"rules":[{"from_table":"a","to_tables":[]}]}'}, "routing_rules.json: rules[0]: the rule of a has no targets"),
    ({"routing_rules.json": '{"rules":[{"from_table":"a","to_tables":["b"]}]}'}, "routing_rules.json: rules[0]: the target b of a names no keyspace"),
    ({"routing_rules.json": '{"rules":[{"from_table":"a b","to_tables":["b.c"]}]}'}, "routing_rules.json: rules[0]: a name has something else"),
    ({"routing_rules.json": '{"rules":[{"from_table":"a@x","to_tables":["b.c"]}]}'}, "rules[0]: `rule a@x b.c` is answered `refused N6 BadType`"),
    ({"routing_rules.json": '{"rules":[{"from_table":1,"to_tables":["b.c"]}]}'}, "routing_rules.json: rules[0].from_table: should be a text, and is a number"),
    ({"routing_rules.json": '{"rules":'}, "routing_rules.json: line 1, column 10: no JSON"),
    ({"routing_rules.json": ""}, "routing_rules.json: is empty"),
    ({"commerce.shards.json": '{"-80":{},"80-":{}}'}, "commerce.shards.json has 2 shards, and commerce.vschema.json says that it isn't sharded"),
    ({"customer.shards.json": '{"-80":{}}'}, "the keyspace customer: `keyspace customer -80` is answered `refused N10 NotCovering`"),
    ({"customer.shards.json": '{"-8":{},"8-":{}}'}, "customer.shards.json: -8 is no key range"),
    (
        {"customer.shards.json": '{"0":{"shard":{"tablet_controls":[{"tablet_type":"PRIMARY","denied_tables":["corder"]}]}}}'},
        "customer.shards.json: 0 denies corder already",
    ),
    ({"plan.txt": "MoveTables --workflow w --target-keyspace customer switchtraffic"}, "plan.txt: line 1: no command of the plan creates the workflow w"),
    ({"plan.txt": "MoveTables --workflow w create --source-keyspace commerce"}, "plan.txt: line 1: MoveTables create needs --target-keyspace"),
    ({"plan.txt": "# nothing"}, "plan.txt: has no command"),
    ({"plan.txt": "MoveTables 'create"}, "plan.txt: line 1: No closing quotation"),
    ({"plan.txt": "MoveTables -w w --target-keyspace away create --source-keyspace commerce"}, "plan.txt: line 1: no document tells of the keyspace away"),
    (
        {"plan.txt": "MoveTables -w w_reverse --target-keyspace customer create --source-keyspace commerce --tables corder"},
        "mt answers `refused N5 ReservedSuffix`",
    ),
    (
        {"commerce.shards.json": '{"-80":{},"80-":{}}', "commerce.vschema.json": '{"sharded":true,"tables":{"corder":{}}}'},
        "plan.txt: line 1: the source commerce has 2 shards, and mt moves tables out of a keyspace of one shard alone",
    ),
]


def folders() -> list[pathlib.Path]:
    """The folders that are rehearsed."""
    return sorted(it for it in REHEARSALS.iterdir() if it.is_dir())


def output(report: Report) -> str:
    """What tools/rehearse prints of a report."""
    return "".join(f"{line}\n" for line in text_of(report, with_rules=False))


@functools.lru_cache(maxsize=None)
def rehearsed(folder: pathlib.Path, program: str) -> Report:
    """The report of a folder, which is made once."""
    return rehearse_folder(folder, program)


def write(program: str) -> None:
    """Writes the outputs anew."""
    for folder in folders():
        folder.with_suffix(".output").write_text(output(rehearse_folder(folder, program)), encoding="utf-8")


def outputs(program: str) -> Iterator[str | None]:
    """Where the output of a rehearsal isn't the one beside it, or its status another than its last lines say."""
    for folder in folders():
        report = rehearsed(folder, program)
        got, want = output(report), folder.with_suffix(".output").read_text(encoding="utf-8")
        lines = difflib.unified_diff(want.splitlines(), got.splitlines(), "wanted", "printed", lineterm="", n=0)
        yield None if got == want else f"{folder.name}:\n    " + "\n    ".join(lines)
        yield None if VERDICTS[report.status] in got.split("\n\n")[-1] else f"{folder.name}: status {report.status}, and it prints {got.splitlines()[-1]}"


def documents(program: str) -> Iterator[str | None]:
    """Where documents have other members than docs/REHEARSE.md says, or another status than the text."""
    text = PAGE.read_text(encoding="utf-8").partition("## The rehearsal as a document")[2]
    told, found = set(re.findall(r"`([a-z_]+)`", text)), set()
    for folder in folders():
        report = rehearsed(folder, program)
        document = json.loads(json.dumps(as_document(report)))
        found |= set(members(document))
        yield None if document["status"] == report.status else f"{folder.name}: the document has the status {document['status']}"
        kinds = {it["kind"] for it in document["warnings"]}
        yield from (f"{PAGE.name} has no kind of warning `{it}`" for it in sorted(kinds) if f"`{it}`" not in text)
    yield from (f"{PAGE.name}: documents have the member `{it}`, which it doesn't name" for it in sorted(found - told))


def members(value: object) -> Iterator[str]:
    """The names of all members of a document, but for those that are a cluster's own."""
    if isinstance(value, list):
        yield from (name for it in value for name in members(it))
    if isinstance(value, dict):
        yield from value
        yield from (name for key, it in value.items() for name in members(list(leaves(it)) if key in BY_NAME else it))


def leaves(value: object) -> Iterator[object]:
    """The objects at the end of a member by names: what queries reached."""
    if isinstance(value, dict) and "answer" in value:
        yield value
    elif isinstance(value, dict):
        yield from (leaf for it in value.values() for leaf in leaves(it))


def scripts(program: str) -> Iterator[str | None]:
    """Where the script of a rehearsal leads to other rules than it tells, or a line of it is refused."""
    for folder in folders():
        report = rehearsed(folder, program)
        if not report.commands:
            continue
        *answers, dump = Program(program, report.watchers).answers([*report.script, "dump"])
        rules = {it["from_table"]: it["to_tables"][0] for it in json.loads(dump)["rules"]}
        yield None if rules == report.commands[-1].all_rules else f"{folder.name}: the script leads to other rules than are told"
        yield None if not any(it.startswith("refused") for it in answers) else f"{folder.name}: a line of the script is refused"


def quoted(program: str) -> Iterator[str | None]:
    """Where docs/OPERATING.md quotes an output otherwise than it is."""
    text = OPERATING.read_text(encoding="utf-8")
    blocks = re.findall(r"^    tools/rehearse checks/rehearsals/(\w+)\n\n((?:    .*\n|\n)+)", text, re.M)
    yield None if blocks else f"{OPERATING.name} quotes no rehearsal"
    for name, block in blocks:
        want = (REHEARSALS / f"{name}.output").read_text(encoding="utf-8")
        parts = [re.sub(r"^    ", "", it, flags=re.M).strip("\n") for it in block.split("    ..\n")]
        yield from (None if it in want else f"{OPERATING.name}: checks/rehearsals/{name}.output has nowhere\n{it}" for it in parts)


def run(program: str, *words: str) -> subprocess.CompletedProcess:
    """A run of tools/rehearse with these words."""
    return subprocess.run([*REHEARSE, *words, "--mt", program], stdout=subprocess.PIPE, stderr=subprocess.PIPE, text=True)


def command_lines(program: str) -> Iterator[str | None]:
    """Where a command line of tools/rehearse writes something else, or ends otherwise."""
    folder, want = REHEARSALS / "one_table", (REHEARSALS / "one_table.output").read_text(encoding="utf-8")
    with tempfile.TemporaryDirectory() as room:
        script = pathlib.Path(room) / "made.script"
        ended = run(program, str(folder), "--script", str(script))
        yield wrong("a folder", ended, 1, want)
        yield None if script.read_text().startswith("# ./mt run commerce customer\nkeyspace commerce\n") else f"--script writes {script.read_text()[:80]!r}"
        yield wrong("a script that can't be written", run(program, str(folder), "--script", room), 2, want, "rehearse: ")
        ended = run(program, str(folder), "--json")
        yield None if ended.returncode == 1 and json.loads(ended.stdout)["status"] == 1 else f"--json: status {ended.returncode}"
        ended = run(program, str(folder), "--rules")
        yield None if ended.stdout.count("GetRoutingRules {") == 3 and ended.returncode == 1 else f"--rules: {ended.stdout.count('GetRoutingRules {')} times"
        yield wrong("a folder without documents", run(program, str(TOP / "tools")), 2, f"CAN'T BE REHEARSED: {TOP}/tools: there is no {KINDS}\n")
        yield wrong("no folder", run(program, f"{room}/none"), 2, f"CAN'T BE REHEARSED: {room}/none: No such file or directory\n")
        yield wrong("no program", run(f"{room}/none", str(folder)), 2, "", "rehearse: ")
        yield wrong("no words", run(program), 2, "", "usage: tools/rehearse")
        yield from pictures(program, folder, pathlib.Path(room) / "page.html")
    yield from refused_documents(program)


def pictures(program: str, folder: pathlib.Path, page: pathlib.Path) -> Iterator[str | None]:
    """Whether `--picture` draws a page; that no tool draws here is told."""
    ended = run(program, str(folder), "--picture", str(page))
    if (TOP / "tools/picture").exists():
        yield None if ended.returncode == 1 and page.exists() else f"--picture: status {ended.returncode}: {ended.stderr[-300:]}"
    else:
        yield wrong("--picture without the tool", ended, 2, None, "rehearse: the picture isn't drawn")


def refused_documents(program: str) -> Iterator[str | None]:
    """What can't be represented, as it is told."""
    for files, told in REFUSED:
        report = rehearsed_with(files, program)
        yield None if told in (report.cannot or "") and report.status == 2 else f"{files}: status {report.status}, {report.cannot!r}; wanted {told!r}"


def rehearsed_with(files: dict[str, str], program: str) -> Report:
    """The report of checks/rehearsals/one_table with other files."""
    with tempfile.TemporaryDirectory() as room:
        here = pathlib.Path(room) / "it"
        shutil.copytree(REHEARSALS / "one_table", here)
        for name, text in files.items():
            (here / name).write_text(text)
        return rehearse_folder(here, program)


def wrong(what: str, ended: subprocess.CompletedProcess, status: int, out: str | None, err: str = "") -> str | None:
    """What is wrong with a run, of which standard error must begin so."""
    is_told = ended.stderr.startswith(err) and bool(err) == bool(ended.stderr) and "Traceback" not in ended.stderr
    is_right = ended.returncode == status and out in (None, ended.stdout) and is_told
    printed = f"it prints {ended.stdout[:200]!r}, and on standard error {ended.stderr[-300:]!r}"
    return None if is_right else f"{what}: status {ended.returncode}, wanted {status}; {printed}"
