"""What `vtctldclient` printed of a cluster, read from the files of a folder.

The layouts are those of Vitess's documentation: members are read in either spelling (`from_table`, `fromTable`), tablet types as a word or as a number, and
members that mean nothing here are passed over. No document was compared with one of a live cluster; docs/VITESS.md says which commands print them.
"""
from __future__ import annotations

import pathlib
import re
from collections.abc import Mapping
from dataclasses import dataclass

from mt_rehearsal.documents import CannotRehearse, Value, read_document

OF_KEYSPACE = re.compile(r"([^.]+)\.(vschema|shards|schema)\.json")
AFTER_RULES = re.compile(r"after-(\d+)\.routing_rules\.json")
AFTER_SHARD = re.compile(r"after-(\d+)\.([^.]+)\.([^.]+)\.json")
TABLET_TYPES = {1: "PRIMARY", 2: "REPLICA", 3: "RDONLY"}  # the numbers by which vtctldclient may print them
RULES, KEYSPACES, PLAN = "routing_rules.json", "keyspaces.json", "plan.txt"


@dataclass(frozen=True)
class Control:
    """What a shard's record denies to tablets of one type."""

    tablet_type: str
    tables: tuple[str, ...]


@dataclass(frozen=True)
class Shard:
    """A shard's record: its name as Vitess writes it, and its `tablet_controls` that deny tables."""

    name: str
    controls: tuple[Control, ...]

    @property
    def keys(self) -> str:
        """Its key range: an unsharded keyspace's shard is called `0` or `-`."""
        return "-" if self.name == "0" else self.name


@dataclass(frozen=True)
class Keyspace:
    """What the documents say of a keyspace; None stands for what none of them says.

    `listed` are the tables of its VSchema, `present` those that GetSchema finds; `vindexes` has the type of the primary vindex of each table that has one.
    """

    name: str
    listed: tuple[str, ...] | None = None
    present: tuple[str, ...] | None = None
    shards: tuple[Shard, ...] | None = None
    is_sharded: bool | None = None
    is_explicit: bool = False
    vindexes: Mapping[str, str] | None = None

    @property
    def tables(self) -> tuple[str, ...]:
        """Its tables: those that are there, or where no document says so those that its VSchema lists."""
        return self.present if self.present is not None else self.listed or ()

    @property
    def is_told(self) -> bool:
        """Whether a document says more of it than its name."""
        return not (self.listed is None and self.present is None and self.shards is None)


@dataclass(frozen=True)
class Rule:
    """A routing rule, with the place where it stands."""

    key: str
    targets: tuple[str, ...]
    place: str


@dataclass(frozen=True)
class Seen:
    """What the real cluster printed behind a command: its rules (None if that wasn't kept), and records of shards by keyspace and shard."""

    rules: tuple[Rule, ...] | None
    shards: tuple[tuple[str, Shard], ...]


@dataclass(frozen=True)
class Cluster:
    """All documents of a folder; `notes` tells of what was left out."""

    keyspaces: Mapping[str, Keyspace]
    rules: tuple[Rule, ...]
    seen: Mapping[int, Seen]
    notes: tuple[str, ...]


def read_cluster(folder: pathlib.Path) -> Cluster:
    """Reads the documents of a folder; raises `CannotRehearse` if there are none of a keyspace, or one has another form."""
    try:
        names = sorted(path.name for path in folder.iterdir())
    except OSError as error:
        raise CannotRehearse(f"{folder}: {error.strerror or error}") from error
    notes = [f"{name} isn't read: the name is none that means anything here" for name in names if not _is_known(name)]
    keyspaces, left_out = _keyspaces(folder, names)
    if not any(it.is_told for it in keyspaces.values()):
        raise CannotRehearse(f"{folder}: there is no KEYSPACE.vschema.json, KEYSPACE.shards.json or KEYSPACE.schema.json")
    rules: tuple[Rule, ...] = ()
    if RULES in names:
        rules = _rules(read_document(folder / RULES))
    else:
        notes.append(f"there is no {RULES}: the rehearsal begins without rules")
    return Cluster(keyspaces, rules, _seen(folder, names), (*left_out, *notes))


def _is_known(name: str) -> bool:
    return not name.endswith(".json") or name in (RULES, KEYSPACES) or any(it.fullmatch(name) for it in (OF_KEYSPACE, AFTER_RULES, AFTER_SHARD))


def _keyspaces(folder: pathlib.Path, names: list[str]) -> tuple[dict[str, Keyspace], list[str]]:
    """The keyspaces that files are named by, or that `keyspaces.json` lists, and notes."""
    found = {match[1] for match in map(OF_KEYSPACE.fullmatch, names) if match}
    if KEYSPACES in names:
        document = read_document(folder / KEYSPACES)
        listed = document if isinstance(document.data, list) else document.member("keyspaces")
        found.update(it.member("name").text() for it in listed.items())
    keyspaces, notes = {}, []
    for name in sorted(found):
        keyspaces[name] = _keyspace(folder, name, names, notes)
    return keyspaces, notes


def _keyspace(folder: pathlib.Path, name: str, names: list[str], notes: list[str]) -> Keyspace:
    """What the documents of a keyspace say; notes are added on what is left out."""
    files = [f"{name}.{kind}.json" for kind in ("vschema", "schema", "shards")]
    vschema, schema, shards = (read_document(folder / file) if file in names else None for file in files)
    present = _present(schema, name, notes) if schema else None
    records = _records(shards, name, notes) if shards else None
    if not vschema:
        return Keyspace(name, present=present, shards=records)
    vschema = _unwrapped(vschema, "v_schema", "vSchema")
    tables = vschema.member("tables").members()
    kinds = {vindex: it.member("type").text() for vindex, it in vschema.member("vindexes").members().items()}
    return Keyspace(
        name,
        listed=tuple(sorted(tables)),
        present=present,
        shards=records,
        is_sharded=vschema.member("sharded").flag(),
        is_explicit=vschema.member("require_explicit_routing", "requireExplicitRouting").flag(),
        vindexes=_vindexes(tables, kinds),
    )


def _unwrapped(document: Value, *names: str) -> Value:
    """A document, or the one member under these names that it stands in."""
    inner = document.member(*names)
    return document if inner.data is None else inner


def _vindexes(tables: Mapping[str, Value], kinds: Mapping[str, str]) -> dict[str, str]:
    """The type of the primary vindex, which is the first one, of each table that has one."""
    found = {}
    for table, it in tables.items():
        first = next(it.member("column_vindexes", "columnVindexes").items(), None)
        if first:
            vindex = first.member("name").text()
            found[table] = kinds.get(vindex, vindex)
    return found


def _present(schema: Value, keyspace: str, notes: list[str]) -> tuple[str, ...]:
    """The tables that GetSchema lists; views are left out, as a move doesn't take them."""
    tables, views = [], []
    for it in _unwrapped(schema, "schema").member("table_definitions", "tableDefinitions").items():
        is_view = it.member("type").data == "VIEW"
        (views if is_view else tables).append(it.member("name").text())
    if views:
        notes.append(f"views of {keyspace} are left out: {', '.join(sorted(views))}")
    return tuple(sorted(set(tables)))


def _records(document: Value, keyspace: str, notes: list[str]) -> tuple[Shard, ...]:
    """The shards that serve."""
    found = []
    for name, it in _unwrapped(document, "shards").members().items():
        record = it.member("shard")
        is_serving = record.data is None or record.member("is_primary_serving", "isPrimaryServing").flag(missing=True)
        if is_serving:
            found.append(Shard(name, _controls(record)))
        else:
            notes.append(f"the shard {keyspace}/{name} doesn't serve (is a Reshard under way?): it is left out")
    if not found:
        raise document.fail("has no shard that serves")
    return tuple(found)


def _controls(record: Value) -> tuple[Control, ...]:
    """The controls of a shard's record that deny tables."""
    if record.data is None:
        return ()
    found = []
    for it in record.member("tablet_controls", "tabletControls").items():
        tables = tuple(table.text() for table in it.member("denied_tables", "deniedTables").items())
        if tables:
            found.append(Control(_tablet_type(it.member("tablet_type", "tabletType")), tables))
    return tuple(found)


def _tablet_type(value: Value) -> str:
    """A tablet type in capitals, which may be written as its number."""
    is_number = isinstance(value.data, int) and not isinstance(value.data, bool)
    return TABLET_TYPES.get(value.data, str(value.data)) if is_number else value.text().upper()


def _rules(document: Value) -> tuple[Rule, ...]:
    found = []
    for it in document.member("rules").items():
        targets = tuple(target.text() for target in it.member("to_tables", "toTables").items())
        found.append(Rule(it.member("from_table", "fromTable").text(), targets, f"{it.file}: {it.place}"))
    return tuple(found)


def _seen(folder: pathlib.Path, names: list[str]) -> dict[int, Seen]:
    """What was kept of the real cluster, by the numbers of commands."""
    rules = {int(match[1]): _rules(read_document(folder / match[0])) for match in map(AFTER_RULES.fullmatch, names) if match}
    shards: dict[int, list[tuple[str, Shard]]] = {}
    for match in filter(None, map(AFTER_SHARD.fullmatch, names)):
        document = read_document(folder / match[0])
        shards.setdefault(int(match[1]), []).append((match[2], Shard(match[3], _controls(_unwrapped(document, "shard")))))
    return {number: Seen(rules.get(number), tuple(shards.get(number, ()))) for number in sorted({*rules, *shards})}
