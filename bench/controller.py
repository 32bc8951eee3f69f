#!/usr/bin/env python3
"""Measures how many lines `tools/controller` answers in a second.

bench/controller.py [--lines N] [--etcd HOST:PORT,..] [--log-of LINES] [PROGRAM]: PROGRAM is crates/mt_program/out/mt_program where none is named.

The log stands in a file of SQLite in the folder for temporary files (TMPDIR), whose disk counts, and in the etcd that is named, below a key of its own. The
lines are inserts of N rows (2,000). Told are, in lines a second by the clock:

- bare appends: entries of one line each, put into the log one after the other, and nothing else;
- one client, which waits for each answer; a hundred clients, each of which does; and one that hands in a thousand lines at once;
- `mt run` of the same lines;
- with --log-of how long it takes to open a log of so many lines, which is played from its beginning.
"""
from __future__ import annotations

import argparse
import pathlib
import secrets
import subprocess
import sys
import tempfile
import threading
import time
from collections.abc import Callable, Sequence

sys.dont_write_bytecode = True
TOP = pathlib.Path(__file__).resolve().parent.parent
sys.path.insert(0, str(TOP / "tools"))
from mt_controller.controller import Controller
from mt_controller.entries import Entry, head_text
from mt_controller.etcd_log import EtcdAt, EtcdLog
from mt_controller.logs import Log
from mt_controller.sqlite_log import SqliteLog

HEAD = ["keyspace commerce", "table commerce corder"]
CLIENTS, AT_ONCE = 100, 1000
Kind = Callable[[str], Log]  # opens the log of a name


def inserts(count: int) -> list[str]:
    return [f"insert corder {key} value{key}" for key in range(count)]


def per_second(count: int, call: Callable[[], object]) -> float:
    """How many of some lines a call does in a second by the clock."""
    begun = time.monotonic()
    call()
    return count / (time.monotonic() - begun)


def bare(log: Log, lines: Sequence[str]) -> None:
    """Entries of one line each."""
    before = head_text([])
    log.append(0, before, b"")
    for place, line in enumerate(lines, 1):
        text = Entry(place, "0" * 64, "0" * 64, "0" * 16, [line]).text()
        log.append(place, text, before)
        before = text


def clients(controller: Controller, lines: Sequence[str], number: int, at_once: int) -> None:
    """Lines that so many clients hand in, so many at once each, and wait for."""

    def client(own: Sequence[str]) -> None:
        for first in range(0, len(own), at_once):
            controller.submit(own[first : first + at_once]).result()

    threads = [threading.Thread(target=client, args=(lines[it::number],)) for it in range(number)]
    for it in threads:
        it.start()
    for it in threads:
        it.join()


def answered(log: Log, lines: Sequence[str], number: int, at_once: int) -> float:
    """How many lines a second a new controller answers to so many clients."""
    controller = Controller(log, [], print)
    controller.start()
    controller.submit(HEAD).result()
    found = per_second(len(lines), lambda: clients(controller, lines, number, at_once))
    controller.close()
    return found


def measure(kind: Kind, lines: Sequence[str]) -> None:
    log = kind(secrets.token_hex(4))
    print(f"  bare appends {per_second(len(lines), lambda: bare(log, lines)):,.0f}", flush=True)
    log.close()
    for title, number, at_once in (("one client", 1, 1), (f"{CLIENTS} clients", CLIENTS, 1), (f"{AT_ONCE} lines at once", 1, AT_ONCE)):
        print(f"  {title} {answered(kind(secrets.token_hex(4)), lines, number, at_once):,.0f}", flush=True)


def start(kind: Kind, count: int) -> None:
    """Tells how long a log of so many lines takes to write, by a client that hands in a thousand at once, and to open."""
    name = secrets.token_hex(4)
    written = answered(kind(name), inserts(count), 1, AT_ONCE)
    begun = time.monotonic()
    controller = Controller(kind(name), [], print)
    print(f"  a log of {controller.applied:,} lines is written in {count / written:.1f} s, and opened in {time.monotonic() - begun:.1f} s", flush=True)
    controller.core.close()


def arguments() -> argparse.Namespace:
    words = argparse.ArgumentParser(description=(__doc__ or "").split("\n")[0])
    words.add_argument("--lines", type=int, default=2000)
    words.add_argument("--etcd", metavar="HOST:PORT,..")
    words.add_argument("--log-of", metavar="LINES", type=int)
    words.add_argument("program", nargs="?", default=str(TOP / "crates/mt_program/out/mt_program"))
    return words.parse_args()


def main() -> None:
    asked = arguments()
    lines = inserts(asked.lines)
    script = "".join(f"{it}\n" for it in [*HEAD, *lines]).encode()
    run = per_second(len(lines), lambda: subprocess.run([asked.program, "run"], input=script, stdout=subprocess.DEVNULL, check=True))
    print(f"mt run {run:,.0f}")
    with tempfile.TemporaryDirectory() as folder:
        kinds: dict[str, Kind] = {"SQLite": lambda name: SqliteLog(f"{folder}/{name}")}
        if asked.etcd:
            kinds["etcd"] = lambda name: EtcdLog(EtcdAt(asked.etcd.split(","), f"/bench/{name}"))
        for title, kind in kinds.items():
            print(title)
            measure(kind, lines)
            if asked.log_of:
                start(kind, asked.log_of)


if __name__ == "__main__":
    main()
