"""Logs that aren't a controller's, or aren't the one that was asked for; and those that are changed behind a controller's back."""
from __future__ import annotations

import json
import pathlib
import shutil
import sqlite3
from collections.abc import Callable, Iterator, Sequence

from controller_logs import EtcdAt, Nodes, SqliteAt, answering, free_ports
from controller_runs import SETUP, WATCHED, Bench, Case, LogAt, Marks, Running, entry, head, skipped, stopped_well, summed, until

ASKED = b"get corder 1\n"
LINES = [SETUP, ["get corder 1"], ["append corder 1 b", "get corder 1"]]  # of the entries of a log that is right
Made = Callable[[Sequence[bytes]], LogAt]


def right(bench: Bench) -> list[bytes]:
    """The entries of a log that is as it must be."""
    entries, lines = [head()], []
    for more in LINES:
        entries.append(entry(len(entries), entries[-1], bench.answers(lines), more))
        lines += more
    return entries


def refused(bench: Bench, log: LogAt, parts: Sequence[str], keyspaces: Sequence[str] = ()) -> list[str]:
    """What is odd of a controller that must refuse a log: it says so with these parts, prints nothing, and writes nothing."""
    before = log.state()
    ended, printed = bench.ended([*log.words(), "--batch", *keyspaces], ASKED)
    bench.tally.add(**{"logs that were refused": 1})
    return stopped_well(ended, *parts) + ([f"it printed {printed!r}"] if printed else []) + (["it wrote to the log"] if log.state() != before else [])


def spoilt(good: Sequence[bytes]) -> Iterator[tuple[str, dict[int, bytes | None], list[str]]]:
    """Changes of a log, by places, with what is said of each."""
    yield "another version", {0: good[0].replace(b'"version":1', b'"version":2')}, ["version 2"]
    yield "a gap", {2: None}, ["gap", "place 3"]
    yield "no first entry", {0: None}, ["place 1"]
    yield "an entry of another place", {2: good[3]}, ["written for place 3"]
    yield "other answers before it", {3: entry(3, good[2], ["ok"], LINES[2])}, ["place 3", "answers"]
    yield "another entry before it", {3: entry(3, good[1], ["ok"], LINES[2])}, ["place 3", "follow"]
    yield "an entry that was changed", {2: good[2].replace(b"corder 1", b"corder  1")}, ["place 2", "as it was written"]
    yield "a last entry that was changed", {3: good[3].replace(b"corder", b"border")}, ["place 3", "as it was written"]
    yield from ((f"at place 2 {text[:200]!r}", {2: text}, ["place 2 "]) for text in bad_texts(good[2]))
    yield from ((f"at place 0 {text!r}", {0: text}, []) for text in bad_heads())


def bad_texts(good: bytes) -> Iterator[bytes]:
    """What is no entry."""
    yield from (b"", b"{", b"\xff\xfe", b"[]", b"5", b'"x"', b"null", b'{"place":2}', b"[" * 100_000, good + b"\n", b" " + good, good[:-1])
    yield from (good.replace(b'"by"', b'"of"'), good.replace(b'"place":2', b'"place":2.0'), good.replace(b'{"place"', b'{"more":1,"place"'))
    for lines in ([], [1], "get corder 1", ["get corder 1", None], ["# a comment"], [" \t"], ["get corder 1\n"], ["\ud800"], ["get \udbff corder"], {"a": 1}):
        members = json.loads(good)
        del members["sum"]
        members["lines"] = lines
        yield summed(members)


def bad_heads() -> Iterator[bytes]:
    """What is no first entry, or one with what are no keyspaces."""
    yield from (b"", b"[]", b"{}", b'{"log":"other","version":1,"watched":[]}', b'{"log":"mt","version":true,"watched":[]}', b'{"log":"mt","version":1}')
    for watched in ("commerce", [1], ["a b"], [""], ["-a"], ["\ud800"], ["\udc80"], [f"k{at}" for at in range(40)], ["a", "a"] * 20):
        yield summed({"log": "mt", "version": 1, "watched": watched})


def one_spoilt(bench: Bench, made: Made, name: str) -> list[str]:
    """A log that was spoilt in one of these ways."""
    good = right(bench)
    changes, parts = next((changes, parts) for it, changes, parts in spoilt(good) if it == name)
    log = made(good)
    for place, text in changes.items():
        log.take(place) if text is None else log.put(place, text)
    return [f"{name}: {odd}" for odd in refused(bench, log, parts)]


def all_spoilt(bench: Bench, made: Made) -> list[str]:
    """Logs that were spoilt, and one that wasn't."""
    good = right(bench)
    ended, printed = bench.ended([*made(good).words(), "--batch"], ASKED)
    found = [] if not ended.status and printed == b"row ab\n" else [f"a log that is right isn't taken: {ended} {printed!r}"]
    found += refused(bench, made(good), ["commerce customer", "and commerce was"], ["commerce"])
    return found + [odd for name, _, _ in spoilt(good) for odd in one_spoilt(bench, made, name)]


def behind_its_back(bench: Bench, made: Made) -> list[str]:
    """Entries that come to stand in a log, or go, while controllers run: each of them stops by itself, or at its next line, and says where."""
    good = right(bench)
    log = made(good)
    crowd = [Running(bench, log.words(), watched=()) for _ in range(2)]
    found = [] if all(it.wait(0) and it.ask(line) == "row ab" for it, line in zip(crowd, Marks().all(*["get corder 1"] * 2))) else ["nothing is answered"]
    entries = log.entries()
    log.put(len(entries), entry(len(entries), entries[-1], ["ok"] * 7, ["get corder 1"]))
    for it in crowd:
        found += [] if until(it.has_ended, bench.patience) else ["it doesn't stop by itself at other answers"]
        found += stopped_well(it.end(), f"place {len(entries)} ")
    return [*found, *gone(bench, made(good), []), *set_back(bench, made)]


def set_back(bench: Bench, made: Made) -> list[str]:
    """Entries are taken away, and as many others put there by somebody else."""
    good = right(bench)
    third = entry(3, good[2], bench.answers([*LINES[0], *LINES[1]]), ["get corder 1"])
    return gone(bench, made(good), [third, entry(4, third, bench.answers([*LINES[0], *LINES[1], "get corder 1"]), ["get corder 1"])])


def gone(bench: Bench, log: LogAt, instead: Sequence[bytes]) -> list[str]:
    """The last entries are taken away behind a controller, as of an etcd that was restored to an earlier state, and maybe others put there."""
    running = Running(bench, log.words(), watched=())
    found = [] if running.ask("get corder 1") == "row ab" else ["nothing is answered"]
    log.take(4)
    log.take(3)
    for place, text in enumerate(instead, 3):
        log.put(place, text)
    before = log.entries()
    found += ["a line is answered although entries are gone"] if running.ask("get corder 1 ") is not None else []
    found += [] if log.entries() == before else ["it wrote to the log"]
    return found + stopped_well(running.end(), "place")


# ---- what is no log at all


def no_files(bench: Bench) -> list[str]:
    """Files that are no log, of SQLite and others."""
    room = bench.folder()
    (room / "text").write_text("keyspace commerce\n" * 100)
    (room / "folder").mkdir()
    made = {
        "other": ["CREATE TABLE other (a)"],
        "of somebody": ["PRAGMA application_id = 7"],
        "without entries": ["PRAGMA application_id = 1836346471", "CREATE TABLE other (a)"],
        "of other columns": ["PRAGMA application_id = 1836346471", "CREATE TABLE entries (a, b)"],
    }
    for name, orders in made.items():
        file = sqlite3.connect(room / name)
        file.executescript(";".join(orders))
        file.close()
    names = ["text", "folder", "none/log", *made]
    return [f"{name}: {odd}" for name in names for odd in refused(bench, SqliteAt(room / name), [str(room / name)], WATCHED)]


def no_etcd(bench: Bench) -> list[str]:
    """Addresses at which nothing listens, or something else."""
    given = [(404, b"404 page not found"), (200, b"<html>"), (200, b"{}"), (200, b"[]"), (200, b'{"header":{}}'), (200, b"\xff"), (500, b""), (301, b"")]
    servers = [answering(status, answer) for status, answer in given]
    ports = [*free_ports(1), *(it.port for it in servers)]
    try:
        words = {port: ["--log", f"etcd:127.0.0.1:{port}", "--batch", *WATCHED] for port in ports}
        return [f"{words[port]}: {odd}" for port in ports for odd in not_begun(bench, words[port], f"127.0.0.1:{port}")]
    finally:
        for it in servers:
            it.close()


def no_words(bench: Bench) -> list[str]:
    """Words that name no log."""
    logs = ["", "sqlite", "sqlite:", "etcd:", "etcd:host", "etcd:host:port", "etcd:127.0.0.1:99999", "etcd:a:1,,b:2", "http://127.0.0.1:1", "moves.db"]
    words = [["--log", it] for it in logs] + [["--log", "etcd:127.0.0.1:1", "--prefix", it] for it in ("", "/", "mt", "/mt/", "/m t", "/é")]
    words += [["--log", "sqlite:log", "--prefix", "/mt"], ["--log", "etcd:127.0.0.1:1", "--cert", "none"], ["--log", "etcd:127.0.0.1:1", "--cacert", "none"]]
    return [f"{it}: {odd}" for it in words for odd in not_begun(bench, [*it, "--batch"])]


def not_begun(bench: Bench, words: Sequence[str], *parts: str) -> list[str]:
    """What is odd of a controller that must not begin."""
    ended, printed = bench.ended(words, ASKED)
    bench.tally.add(**{"logs that were refused": 1})
    return stopped_well(ended, *parts) + ([f"it printed {printed!r}"] if printed else [])


def foreign_keys(bench: Bench, made: Callable[[Sequence[bytes]], EtcdAt]) -> list[str]:
    """Keys below the prefix that are none of a log's."""
    found, good = [], right(bench)
    for key in ("/a", "/0000000000000001x", "/1", "/", "/0000000000000001/a", "/zz"):
        log = made(good)
        log.put_key(log.prefix + key, b"x")
        found += [f"{key}: {odd}" for odd in refused(bench, log, [log.prefix + key])]
    return found


# ---- all of it


def in_files(bench: Bench) -> Made:
    """Makes logs in SQLite, which stand in their file as a controller leaves it."""
    begun = SqliteAt(bench.folder() / "log")
    bench.ended([*begun.words(), "--batch", *WATCHED])

    def made(entries: Sequence[bytes]) -> LogAt:
        log = SqliteAt(pathlib.Path(shutil.copy(begun.path, bench.folder() / "log")))
        for place, text in enumerate(entries):
            log.put(place, text)
        return log

    return made


def in_etcd(bench: Bench, nodes: Nodes) -> Callable[[Sequence[bytes]], EtcdAt]:
    """Makes logs in etcd."""

    def made(entries: Sequence[bytes]) -> EtcdAt:
        log = EtcdAt(nodes, f"/mt/{bench.folder().name}")
        for place, text in enumerate(entries):
            log.put(place, text)
        return log

    return made


def cases(nodes: Nodes | None) -> list[Case]:
    """These cases."""
    found: list[Case] = [
        ("logs that aren't ours, SQLite", lambda bench: all_spoilt(bench, in_files(bench))),
        ("a log that changes, SQLite", lambda bench: behind_its_back(bench, in_files(bench))),
        ("files that are no log", no_files),
        ("addresses without etcd", no_etcd),
        ("words that name no log", no_words),
    ]
    of_etcd: list[Case] = [
        ("logs that aren't ours, etcd", lambda bench: all_spoilt(bench, in_etcd(bench, nodes))),
        ("a log that changes, etcd", lambda bench: behind_its_back(bench, in_etcd(bench, nodes))),
        ("keys that aren't ours", lambda bench: foreign_keys(bench, in_etcd(bench, nodes))),
    ]
    return [(name, so if nodes else skipped) for name, so in of_etcd] + found
