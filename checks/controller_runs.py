"""Controllers that are run, fed, stopped and killed; and what their log must say then."""
from __future__ import annotations

import hashlib
import json
import os
import pathlib
import signal
import subprocess
import tempfile
import threading
import time
from collections.abc import Callable, Iterator, Sequence
from dataclasses import dataclass, field
from typing import Optional, Protocol

WATCHED = ("commerce", "customer")
SETUP = ["keyspace commerce", "keyspace customer", "table commerce corder", "insert corder 1 a"]
BUFFERED = {name: value for name, value in os.environ.items() if name != "PYTHONUNBUFFERED"}  # by which answers would be flushed anyway
PATIENCE = 120.0  # seconds after which what is waited for will never come


class LogAt(Protocol):
    """Where a log stands, which is read and written here without the controller."""

    def words(self, turn: int = 0) -> list[str]:
        """What names it to a controller; each turn names its nodes in another order, if it has several."""

    def entries(self) -> list[bytes]:
        """What stands there, by places."""

    def put(self, place: int, text: bytes) -> None:
        """Puts an entry there, over one that stands there."""

    def take(self, place: int) -> None:
        """Takes an entry away."""

    def state(self) -> object:
        """Something that differs once anything was written."""


@dataclass
class Feed:
    """What a client sent, and the answers that it has read."""

    sent: list[str] = field(default_factory=list)
    answers: list[str] = field(default_factory=list)


@dataclass(frozen=True)
class Ended:
    """How a controller ended: its status, or minus a signal; and what stood on standard error."""

    status: int
    said: str


class Tally:
    """Counts of what was done, by several threads."""

    def __init__(self) -> None:
        self._lock = threading.Lock()
        self.counts: dict[str, int] = {}

    def add(self, **counts: int) -> None:
        with self._lock:
            for name, count in counts.items():
                self.counts[name] = self.counts.get(name, 0) + count


@dataclass(frozen=True)
class Bench:
    """What the cases share: the tool, the program that says what is right, a folder, the seed, and how long to wait for what may never come."""

    tool: pathlib.Path
    program: pathlib.Path
    room: pathlib.Path
    seed: int
    tally: Tally
    patience: float = PATIENCE

    def folder(self) -> pathlib.Path:
        """A new folder."""
        return pathlib.Path(tempfile.mkdtemp(dir=self.room))

    def answers(self, lines: Sequence[str], watched: Sequence[str] = WATCHED) -> list[str]:
        """What the program answers to lines."""
        return self.output("".join(f"{it}\n" for it in lines).encode("utf-8", "surrogateescape"), watched).splitlines()

    def output(self, script: bytes, watched: Sequence[str] = WATCHED) -> str:
        """What the program prints for a script."""
        return subprocess.run([self.program, "run", *watched], input=script, stdout=subprocess.PIPE, check=True).stdout.decode("utf-8", "surrogateescape")

    def ended(self, words: Sequence[str], given: bytes = b"") -> tuple[Ended, bytes]:
        """How a controller with these words ends, and what it prints."""
        ran = subprocess.run([self.tool, *words], input=given, stdout=subprocess.PIPE, stderr=subprocess.PIPE, timeout=PATIENCE, check=False)
        return Ended(ran.returncode, ran.stderr.decode(errors="replace")), ran.stdout


def skipped(bench: Bench) -> None:
    """A case that can't be tried here."""


class Running:
    """A controller that is fed through a pipe, in a process group of its own."""

    def __init__(self, bench: Bench, log: Sequence[str], before: Sequence[str] = (), watched: Sequence[str] = WATCHED) -> None:
        """`before` are words that stand before the tool, to run it with limits."""
        self.feed, self.patience = Feed(), bench.patience
        self._said = tempfile.TemporaryFile(dir=bench.room)
        words = [*before, str(bench.tool), *log, "--batch", *watched]
        how = {"stdin": subprocess.PIPE, "stdout": subprocess.PIPE, "stderr": self._said, "start_new_session": True}
        self._process = subprocess.Popen(words, env=BUFFERED, **how)
        self.pid = self._process.pid
        self._changed, self._is_at_end = threading.Condition(), False
        self._reader = threading.Thread(target=self._read, daemon=True)
        self._reader.start()

    def _read(self) -> None:
        """Reads answers until all that have the pipe are gone."""
        for line in self._process.stdout:
            if line.endswith(b"\n"):
                with self._changed:
                    self.feed.answers.append(line[:-1].decode())
                    self._changed.notify_all()
        with self._changed:
            self._is_at_end = True
            self._changed.notify_all()

    def send(self, *lines: str) -> None:
        """Gives it lines; one that it has gone away from is sent too."""
        self.feed.sent += lines
        try:
            self._process.stdin.write("".join(f"{it}\n" for it in lines).encode("utf-8", "surrogateescape"))
            self._process.stdin.flush()
        except BrokenPipeError:
            pass

    def wait(self, count: int, seconds: float | None = None) -> bool:
        """Whether it has given so many answers, waited for until it ends or a time is over."""
        with self._changed:
            self._changed.wait_for(lambda: len(self.feed.answers) >= count or self._is_at_end, seconds or self.patience)
            return len(self.feed.answers) >= count

    def ask(self, line: str) -> str | None:
        """The answer to a line behind those that were answered; None if there is none."""
        self.send(line)
        return self.feed.answers[len(self.feed.sent) - 1] if self.wait(len(self.feed.sent)) else None

    def signal(self, number: int, is_whole: bool = True) -> None:
        """Sends a signal to all of it, or to its main process alone."""
        (os.killpg if is_whole else os.kill)(self.pid, number)

    def kill(self, is_whole: bool = True) -> bool:
        """Kills it; whether none of its processes is left then."""
        self.signal(signal.SIGKILL, is_whole)
        self._process.wait()
        self._close_input()
        self._reader.join(self.patience)
        if not is_whole and not self._is_at_end:
            self.signal(signal.SIGKILL)
        return self._is_at_end

    def end(self) -> Ended:
        """Ends its input, and waits for its end. One that doesn't end is killed."""
        self._close_input()
        try:
            status = self._process.wait(self.patience)
        except subprocess.TimeoutExpired:
            self.signal(signal.SIGKILL)
            status = self._process.wait()
        self._reader.join(self.patience)
        return Ended(status, self.said())

    def has_ended(self) -> bool:
        """Whether its main process has."""
        return self._process.poll() is not None

    def said(self) -> str:
        """What stands on its standard error so far."""
        size = os.fstat(self._said.fileno()).st_size
        return os.pread(self._said.fileno(), size, 0).decode(errors="replace")

    def _close_input(self) -> None:
        try:
            self._process.stdin.close()
        except BrokenPipeError:
            pass


class Marks:
    """Lines that can be told from all others, by blanks behind them, which the language passes over."""

    def __init__(self) -> None:
        self._number = 0
        self._lock = threading.Lock()

    def marked(self, line: str) -> str:
        with self._lock:
            self._number += 1
            return line + "".join(" \t"[int(bit)] for bit in f"{self._number:b}")

    def all(self, *lines: str) -> list[str]:
        return [self.marked(it) for it in lines]


def children(pid: int) -> list[int]:
    """The processes that a process has begun."""
    return [int(it) for it in pathlib.Path(f"/proc/{pid}/task/{pid}/children").read_text().split()]


def until(holds: Callable[[], object], seconds: float = PATIENCE, pause: float = 0.05) -> bool:
    """Whether something comes to hold, with a pause between two looks."""
    last = time.monotonic() + seconds
    while not (so := holds()) and time.monotonic() < last:
        time.sleep(pause)
    return bool(so)


Case = tuple[str, Callable[[Bench], Optional[list[str]]]]  # its name; and what isn't as it must be, or None if it can't be tried here


# ---- what a log must say


def lines_in(entries: Sequence[bytes]) -> list[str]:
    """The lines of the entries of a log."""
    return [line for it in entries[1:] for line in json.loads(it)["lines"]]


def entry(place: int, before: bytes, answers: Sequence[str], lines: Sequence[str]) -> bytes:
    """An entry as a controller writes it, behind another, with the answers before it."""
    digest = hashlib.sha256("".join(f"{it}\n" for it in answers).encode()).hexdigest()
    members = {"place": place, "before": hashlib.sha256(before).hexdigest(), "answers": digest, "by": "0123456789abcdef", "lines": list(lines)}
    return summed(members)


def summed(members: dict[str, object]) -> bytes:
    """An entry of these members, with the sum that it must have."""
    text = json.dumps(members, separators=(",", ":"))
    return f'{text[:-1]},"sum":"{hashlib.sha256(text.encode()).hexdigest()}"}}'.encode()


def head(watched: Sequence[str] = WATCHED) -> bytes:
    """The first entry of a log."""
    return summed({"log": "mt", "version": 1, "watched": list(watched)})


def differences(bench: Bench, log: LogAt, feeds: Sequence[Feed], watched: Sequence[str] = WATCHED) -> list[str]:
    """What isn't as it must be: each entry follows the one before, with the digest of the answers of the program; the lines are those that clients
    sent, each once, each client's in its order, all that were answered and maybe some behind them; and the answers are those of the program.
    """
    entries = log.entries()
    lines = lines_in(entries)
    answers = bench.answers(lines, watched)
    bench.tally.add(entries=len(entries), lines=len(lines), answered=sum(len(it.answers) for it in feeds))
    found = [*_differences_of_chain(entries, answers, watched), *_differences_of_lines(lines, feeds)]
    given = dict(zip(lines, answers))
    for feed in feeds:
        found += [f"{line!r} was answered {answer}, and is {given.get(line)}" for line, answer in zip(feed.sent, feed.answers) if given.get(line) != answer]
    ended, printed = bench.ended([*log.words(), "--script"])
    script = "".join(f"{it}\n" for it in (" ".join(["# ./mt run", *watched]), *lines)).encode("utf-8", "surrogateescape")
    return found + ([] if printed == script and not ended.status else [f"--script prints something else: status {ended.status} {ended.said[-300:]}"])


def _differences_of_chain(entries: Sequence[bytes], answers: Sequence[str], watched: Sequence[str]) -> Iterator[str]:
    """Of the entries' members, but for their lines."""
    digest, so_far = hashlib.sha256(), iter(answers)
    if entries[:1] != [head(watched)]:
        yield f"the first entry is {entries[:1]}"
    for place, text in enumerate(entries[1:], 1):
        it = json.loads(text)
        if (it["place"], it["before"], it["answers"]) != (place, hashlib.sha256(entries[place - 1]).hexdigest(), digest.hexdigest()):
            yield f"the entry at place {place} doesn't follow: {text[:200]!r}"
        digest.update("".join(f"{next(so_far)}\n" for _ in it["lines"]).encode())


def _differences_of_lines(lines: Sequence[str], feeds: Sequence[Feed]) -> Iterator[str]:
    """Of the lines' order and number."""
    at = {line: place for place, line in enumerate(lines)}
    strange = set(at) - {line for it in feeds for line in it.sent}
    if len(at) < len(lines) or strange:
        yield f"{len(lines) - len(at)} lines stand in the log more than once, and {len(strange)} were sent by nobody: {sorted(strange)[:2]}"
    for feed in feeds:
        places = [at[it] for it in feed.sent if it in at]
        if places != sorted(places) or any(it in at for it in feed.sent[len(places) :]):
            yield f"the {len(places)} lines of a client in the log aren't its first ones in their order"
        if len(places) < len(feed.answers):
            yield f"{len(feed.answers)} lines of a client were answered, and {len(places)} stand in the log"


def went_well(ended: Ended) -> list[str]:
    """What isn't as it must be of a controller whose input ended."""
    return [] if ended.status == 0 and not ended.said else [f"it ended with status {ended.status}: {ended.said[-600:]}"]


def stopped_well(ended: Ended, *parts: str) -> list[str]:
    """What isn't as it must be of a controller that can't go on: status 2, and a message of its own with these parts."""
    told = [it for it in ended.said.splitlines() if not it.startswith("controller: ")]
    missing = [it for it in parts if it not in ended.said]
    if ended.status == 2 and ended.said and not told and not missing:
        return []
    return [f"it ended with status {ended.status}, and {missing} isn't in what it said: {ended.said[-900:]!r}"]
