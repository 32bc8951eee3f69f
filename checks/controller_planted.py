"""Copies of the controller with a fault each, which a case has to see."""
from __future__ import annotations

import dataclasses
import pathlib
import shutil
from collections.abc import Callable, Sequence

import controller_crowds as crowds
import controller_files as files
import controller_lines as lines
import controller_tls as tls
import controller_wrong as wrong
from controller_logs import EtcdAt, Nodes, SqliteAt
from controller_runs import Bench, Case, Tally, skipped

TOP = pathlib.Path(__file__).resolve().parent.parent
PATIENCE = 6.0  # seconds until what doesn't come isn't waited for any more
Replaced = Sequence[tuple[str, str, str]]  # a file, the text that goes, the text that comes
Fault = tuple[str, Replaced, Callable[[Bench], list[str]]]

APPENDED = "self._append([line for it in asked for line in it.lines])"
ANSWERED = "it.answers.set_result([next(answers) for _ in it.lines])\n"
LOOKED_FOR = "self._log.append(self._place, text, self._before) or self._log.read(self._place)[:1] == [text]"
FREE = '"compare": [{"key": key, "result": "EQUAL", "target": "CREATE", "create_revision": "0"}, *follows],'
BEHIND = '"result": "EQUAL", "target": "VALUE", "value": base64.b64encode(before).decode()'

ANSWERED_FIRST = [
    ("controller", APPENDED, "self.core.ask([line for it in asked for line in it.lines])"),
    ("controller", ANSWERED, f"{ANSWERED}        {APPENDED}\n"),
]
REPLACED = [
    ("sqlite_log", "            if place in stand:\n                return False\n", ""),
    ("sqlite_log", '"INSERT INTO entries', '"INSERT OR REPLACE INTO entries'),
]
NO_DIGEST = [("controller", "if entry.answers != self._digest.hexdigest():", "if False:")]
NOT_BEFORE = [("controller", "if entry.before != sum_of(self._before):", "if False:")]
NOT_SUMMED = [("entries", "if text != written:", "if False:")]
ANY_BEFORE = [("sqlite_log", "if place and stand.get(place - 1) != before:", "if False:")]
OTHER_ORDER = [("controller", f"        for it in asked:\n            {ANSWERED}", f"        for it in reversed(asked):\n            {ANSWERED}")]
NOT_FLUSHED = [("batch", "        sys.stdout.flush()\n", "")]
WITHOUT_MEMORY = [("core", "if ctypes.get_errno() == errno.ENOMEM:", "if False:")]
HELD = [("batch", 'open(sys.stdin.fileno(), "rb", closefd=False)', "sys.stdin.buffer")]
NOT_VERIFIED = [("opened", "ssl.create_default_context(cafile=given.cacert)", "ssl._create_unverified_context()")]
NO_LOOK = [("controller", LOOKED_FOR, LOOKED_FOR.partition(" or ")[0])]
NOT_FREE = [("etcd_log", FREE, '"compare": follows,')]
ANY_BEHIND = [("etcd_log", BEHIND, '"result": "GREATER", "target": "VALUE", "value": ""')]

IN_FILES: list[Fault] = [
    ("it answers before it appends", ANSWERED_FIRST, crowds.held_up),
    ("a digest that isn't compared", NO_DIGEST, lambda it: spoilt(it, "other answers before it")),
    ("an entry before that isn't compared", NOT_BEFORE, lambda it: spoilt(it, "another entry before it")),
    ("a sum that isn't compared", NOT_SUMMED, lambda it: spoilt(it, "a last entry that was changed")),
    ("a place that a second one takes", REPLACED, lambda it: crowds.three(it, SqliteAt(it.folder() / "log"))),
    ("an entry put behind another", ANY_BEFORE, lambda it: wrong.set_back(it, wrong.in_files(it))),
    ("answers in another order", OTHER_ORDER, lines.grouped),
    ("an answer that isn't flushed", NOT_FLUSHED, lines.each_at_once),
    ("a line without memory that is answered", WITHOUT_MEMORY, files.copied_without),
    ("an open input that holds it", HELD, files.limited),
]


def spoilt(bench: Bench, name: str) -> list[str]:
    """A log in SQLite that was spoilt."""
    return wrong.one_spoilt(bench, wrong.in_files(bench), name)


def in_etcd(nodes: Nodes | None) -> list[Fault]:
    """The faults that are seen with etcd."""
    return [
        ("a second try without a look", NO_LOOK, lambda it: crowds.through_losses(it, nodes, 40)),
        ("a place that needn't be free", NOT_FREE, lambda it: crowds.three(it, EtcdAt(nodes, f"/mt/{it.folder().name}"))),
        ("a certificate that isn't compared", NOT_VERIFIED, tls.with_certificates),
        ("an entry of etcd put behind another", ANY_BEHIND, lambda it: wrong.set_back(it, wrong.in_etcd(it, nodes))),
    ]


def copied(to: pathlib.Path, replaced: Replaced) -> list[str]:
    """Makes a copy of the controller with other texts; what doesn't stand there once."""
    shutil.copytree(TOP / "tools", to / "tools")
    for name in ("embed", "out", "docs"):
        (to / name).symlink_to(TOP / name)
    return [odd for name, old, new in replaced for odd in turned(to / f"tools/mt_controller/{name}.py", old, new)]


def turned(path: pathlib.Path, old: str, new: str) -> list[str]:
    """Puts another text in the place of one; says so if that doesn't stand there once."""
    text = path.read_text()
    path.write_text(text.replace(old, new))
    return [f"{old} stands in {path.name} {text.count(old)} times"] if text.count(old) != 1 else []


def is_seen(bench: Bench, replaced: Replaced, so: Callable[[Bench], list[str]]) -> list[str]:
    """Nothing, if a case finds something odd of a copy with a fault."""
    room = bench.folder()
    if odd := copied(room, replaced):
        return odd
    found = so(dataclasses.replace(bench, tool=room / "tools/controller", room=room, tally=Tally(), patience=PATIENCE))
    bench.tally.add(**{"planted faults": int(bool(replaced))})
    return [] if found else ["isn't seen"]


def cases(nodes: Nodes | None) -> list[Case]:
    """A case for each fault."""
    faults = [(fault, True) for fault in IN_FILES] + [(fault, nodes is not None) for fault in in_etcd(nodes)]
    sound: Case = ("a copy without a fault", lambda bench: ["a case finds something"] if not is_seen(bench, [], lines.grouped) else [])
    return [sound] + [(f"planted: {fault[0]}", (lambda bench, fault=fault: is_seen(bench, *fault[1:])) if is_there else skipped) for fault, is_there in faults]
