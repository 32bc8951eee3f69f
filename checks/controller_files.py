"""Logs in SQLite whose disk is full, or whose files were cut or have a byte turned; and controllers that have too little memory."""
from __future__ import annotations

import pathlib
import random
import resource
import sqlite3
import subprocess
from collections.abc import Callable, Sequence
from dataclasses import dataclass

from controller_logs import SqliteAt
from controller_runs import SETUP, WATCHED, Bench, Case, Marks, Running, children, differences, lines_in, stopped_well, until, went_well

SMALL, ROOMY = 300_000, 20_000_000  # bytes
WIDE = " " * 3000  # behind a line, so that a disk is full soon
FRAME, FRAMES_FROM, PAGE = 4096 + 24, 32, 4096
ENTRIES = 14
ASKED = "get corder 1"
ROWS = 8_000
COPIED = [f"advance mv forward {ROWS + 1} 65535"]
WRITTEN = [f"insert corder {at} v" for at in range(ROWS + 2, 4 * ROWS)]


def told_full(bench: Bench, path: pathlib.Path, before: Sequence[str], give_room: Callable[[], object]) -> list[str]:
    """A controller whose log can't grow any more: it answers nothing more and says why; with room the log goes on."""
    log, marks = SqliteAt(path), Marks()
    running = Running(bench, log.words(), before)
    lines = marks.all(*SETUP, *[f"append corder 1 x{WIDE}"] * 400)
    if all(running.ask(line) is not None for line in lines):
        running.end()
        return ["the disk was never full"]
    feeds, found = [running.feed], stopped_well(running.end(), str(path))
    again = Running(bench, log.words(), before)
    again.send(*marks.all(*[f"get corder 1{WIDE}"] * 100))
    again.wait(100)
    found += stopped_well(again.end(), str(path))
    give_room()
    last = Running(bench, log.words())
    last.send(*marks.all("append corder 1 y", "get corder 1"))
    bench.tally.add(faults=2)
    found += [] if last.wait(2) else ["the log doesn't go on where there is room again"]
    return [*found, *went_well(last.end()), *differences(bench, log, [*feeds, again.feed, last.feed])]


def limited(bench: Bench) -> list[str]:
    """The log's file may have so many bytes."""
    return told_full(bench, bench.folder() / "log", ["prlimit", f"--fsize={SMALL}"], lambda: None)


def full_disk(bench: Bench) -> list[str] | None:
    """A small disk of its own; None if this user can't have one."""
    folder = bench.folder()
    how = {"stdout": subprocess.DEVNULL, "stderr": subprocess.DEVNULL, "check": False}
    if subprocess.run(["mount", "-t", "tmpfs", "-o", f"size={SMALL}", "tmpfs", folder], **how).returncode:
        return None
    try:
        return told_full(bench, folder / "log", [], lambda: subprocess.run(["mount", "-o", f"remount,size={ROOMY}", folder], check=True))
    finally:
        subprocess.run(["umount", folder], check=True)


# ---- files that were cut, or have a byte turned


@dataclass(frozen=True)
class Files:
    """A log's file and SQLite's write-ahead log beside it, and what stands in both."""

    file: bytes
    ahead: bytes
    entries: Sequence[bytes]

    def at(self, folder: pathlib.Path) -> SqliteAt:
        """The same in a folder."""
        (folder / "log").write_bytes(self.file)
        if self.ahead:
            (folder / "log-wal").write_bytes(self.ahead)
        return SqliteAt(folder / "log")


def left(bench: Bench) -> tuple[Files, Files]:
    """What a controller leaves that is killed; and the same once all stands in the log's file."""
    folder, marks = bench.folder(), Marks()
    log = SqliteAt(folder / "log")
    running = Running(bench, log.words())
    for line in marks.all(*SETUP, *(f"append corder 1 {at}{' ' * 700}" for at in range(ENTRIES))):
        running.ask(line)
    running.kill()
    killed = (log.path.read_bytes(), (folder / "log-wal").read_bytes())
    entries = log.entries()  # whoever closes the file last writes all to it
    return Files(*killed, entries), Files(log.path.read_bytes(), b"", entries)


def cut(bench: Bench) -> list[str]:
    """Files that end earlier: each opens with the first lines, or is refused, and nothing is written."""
    killed, closed = left(bench)
    frames, pages = range(FRAMES_FROM, len(killed.ahead), FRAME), range(0, len(closed.file), PAGE)
    files = [Files(killed.file, killed.ahead[: at + more], killed.entries) for at in frames for more in (0, 1000 * (at % 3 == 0))]
    files += [Files(closed.file[:at], b"", closed.entries) for at in pages]
    files += [Files(closed.file[: at + 1000], b"", closed.entries) for at in pages]
    bench.tally.add(faults=len(files))
    return [f"{len(it.file)} and {len(it.ahead)} bytes: {odd}" for it in files for odd in opens(bench, it)]


def turned(bench: Bench) -> list[str]:
    """Files with a byte turned: one of an entry is told with its place; by one elsewhere the log is refused, or is as it was."""
    _, closed = left(bench)
    drawn = random.Random(bench.seed)
    places = {place: closed.file.index(text) + drawn.randrange(len(text)) for place, text in enumerate(closed.entries)}
    told = {at: (f"place {place} ", *["version"] * (place == 0)) for place, at in places.items()}
    ats = [*told, *drawn.sample(range(len(closed.file)), 12), *drawn.sample(range(100), 8)]
    bench.tally.add(faults=len(ats))
    return [f"byte {at}: {odd}" for at in ats for odd in opens(bench, turned_at(closed, at), *told.get(at, ()), is_whole=True)]


def turned_at(files: Files, at: int) -> Files:
    """The same with another byte at a place of the file."""
    changed = bytearray(files.file)
    changed[at] ^= 1
    return Files(bytes(changed), files.ahead, files.entries)


def opens(bench: Bench, files: Files, *places: str, is_whole: bool = False) -> list[str]:
    """What is odd of a controller on such files. Where places are given it must be refused with one of them."""
    log = files.at(bench.folder())
    ended, printed = bench.ended([*log.words(), "--batch", *WATCHED], f"{ASKED}\n".encode())
    bench.tally.add(**{"spoilt files that were refused" if ended.status else "spoilt files that opened": 1})
    if ended.status:
        found = stopped_well(ended) + ([f"it printed {printed!r}"] if printed else [])
        found += [] if not places or any(it in f"{ended.said} " for it in places) else [f"it doesn't say where: {ended.said}"]
        return found + (["it wrote to the file"] if log.path.read_bytes() != files.file else [])
    if places:
        return [f"it isn't refused, and printed {printed!r}"]
    try:
        entries = log.entries()
    except sqlite3.Error as why:
        return [f"its file can't be read: {why}"]
    allowed = [len(files.entries)] if is_whole else range(1, len(files.entries) + 1)
    found = [] if entries[:-1] in [list(files.entries[:at]) for at in allowed] else ["other entries stand in it"]
    answers = bench.answers(lines_in(entries))
    return found + ([] if printed.decode() == f"{answers[-1]}\n" and lines_in(entries)[-1] == ASKED else [f"it printed {printed!r}"])


# ---- little memory


def little_memory(bench: Bench) -> list[str]:
    """A controller whose core has no memory for what others do, or for what it is asked itself: it stops and says so, and the others go on."""
    ways = ((COPIED, False), (COPIED, True), (WRITTEN, True))
    return [f"{lines[0]}, {is_asked}: {odd}" for lines, is_asked in ways for odd in without_memory(bench, lines, is_asked)]


def copied_without(bench: Bench) -> list[str]:
    """The shortest of these: a turn of a stream."""
    return without_memory(bench, COPIED, True)


def without_memory(bench: Bench, lines: Sequence[str], is_asked: bool) -> list[str]:
    """Lines that need memory are given to a controller without it, or to another one."""
    log, marks = SqliteAt(bench.folder() / "log"), Marks()
    other, little = Running(bench, log.words()), Running(bench, log.words())
    other.send(*SETUP, *(f"insert corder {at} v" for at in range(2, ROWS + 2)), "create mv commerce customer corder")
    found = [] if other.wait(len(other.feed.sent)) and little.ask(marks.marked(ASKED)) else ["not all is answered"]
    (core,) = children(little.pid)
    size = size_of(core)
    resource.prlimit(core, resource.RLIMIT_AS, (size, size))
    (little if is_asked else other).send(*lines)
    if not until(little.has_ended, bench.patience):
        found.append(f"one without memory doesn't end by itself: its core had {size} bytes, and now {[size_of(it) for it in children(little.pid)]}")
    found += stopped_well(little.end(), "memory")
    found += [] if other.ask(marks.marked(ASKED)) else ["the other doesn't go on"]
    bench.tally.add(faults=1)
    return [*found, *went_well(other.end()), *differences(bench, log, [other.feed, little.feed])]


def size_of(pid: int) -> int:
    """How many bytes of addresses a process has."""
    return int(pathlib.Path(f"/proc/{pid}/statm").read_text().split()[0]) * resource.getpagesize()


CASES: list[Case] = [
    ("a file that can't grow", limited),
    ("a full disk", full_disk),
    ("files that were cut", cut),
    ("files with a byte turned", turned),
    ("a controller without memory", little_memory),
]
