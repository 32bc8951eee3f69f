"""A controller: it appends lines to a log, applies what stands there, its own and what others appended, and answers."""
from __future__ import annotations

import hashlib
import queue
import secrets
import threading
import time
from collections import deque
from collections.abc import Callable, Sequence
from concurrent.futures import Future
from dataclasses import dataclass

from mt_controller.core import Core, CoreFailed
from mt_controller.entries import MOST_BYTES, Entry, WrongLog, head_text, is_line, read_entry, read_head, sum_of, written_size
from mt_controller.logs import Log, LogFailed, LogUnreachable, entries_from

LOOKS_EVERY = 0.2  # seconds, for what others appended
TRIES_EVERY = 0.5  # seconds, for a log that can't be reached
TELLS_EVERY = 5.0  # seconds, how far it is while it plays a long log
LAST_LINES = 200  # that are kept with their answers
MOST_AT_ONCE = 1000  # lines of an entry

Stopped = (WrongLog, LogFailed, CoreFailed)  # why a controller goes on no more


class NotTaken(Exception):
    """A line can't stand in an entry; the text says why. It isn't in the log."""


class Ended(Exception):
    """The controller has ended, so that a line wasn't answered. It may be in the log."""


@dataclass(frozen=True)
class Applied:
    """A line that was applied: its number among those of the log, counted from 1, and its answer."""

    number: int
    line: str
    answer: str


@dataclass(frozen=True)
class Asked:
    """Lines that somebody waits for the answers of."""

    lines: Sequence[str]
    answers: Future[list[str]]


class Controller:
    """One of the controllers of a log. `submit` may be called by several threads; one more appends and applies.

    What ends it is in `ended`: None behind a `close`, else one of `Stopped`; then all that wait are told, and nothing is applied any more. `applied` counts
    the lines, `last` has the last ones, `creates` by its name the last line that created a workflow, `away` why the log doesn't answer at the moment: they are
    read and waited for under `changed`.
    """

    def __init__(self, log: Log, keyspaces: Sequence[str], tell: Callable[[str], None]) -> None:
        """Opens a log, or begins one that watches these keyspaces, and plays it. Without keyspaces they are those of the log.

        Raises `WrongLog`, `LogFailed`, `CoreFailed`, and `LogUnreachable` if the log doesn't answer. `tell` is told what an operator should see.
        """
        self._log, self._tell = log, tell
        texts = log.read(0)
        self.core = Core(read_head(texts[0]) if texts else keyspaces)  # words that are no names are refused before anything is written
        self.watched = self._open(keyspaces)
        self.applied = 0
        self.last: deque[Applied] = deque(maxlen=LAST_LINES)
        self.creates: dict[str, Applied] = {}
        self.away: str | None = None
        self.changed = threading.Condition()
        self.ended: Future[BaseException | None] = Future()
        self._digest = hashlib.sha256()  # of the answers so far, as `mt run` writes them
        self._waiting: queue.SimpleQueue[Asked | None] = queue.SimpleQueue()
        self._left: Asked | None = None
        self._play()
        self._thread = threading.Thread(target=self._run, name="log", daemon=True)

    def start(self) -> None:
        """Begins to take lines, and to follow what others append."""
        self._thread.start()

    def submit(self, lines: Sequence[str]) -> Future[list[str]]:
        """The answers to lines, once they stand in the log, in one entry, and are applied. Raises `NotTaken`, for one that isn't a line, or is silent, too.

        The future has `Ended` if the controller ends before.
        """
        if not lines or not all(map(is_line, lines)):
            raise NotTaken("a line is a text with no line feed, and no comment")
        if sum(map(written_size, lines)) > MOST_BYTES:
            raise NotTaken(f"an entry of the log takes {MOST_BYTES:,} bytes")
        asked = Asked(lines, Future())
        self._waiting.put(asked)
        if self.ended.done():
            self._end_those_that_wait()
        return asked.answers

    def close(self) -> None:
        """Ends it, behind what was asked before."""
        self._waiting.put(None)
        self._thread.join()
        self.core.close()
        self._log.close()

    # ---- opening

    def _open(self, keyspaces: Sequence[str]) -> tuple[str, ...]:
        """Reads the first entry, or writes it; the keyspaces that it has."""
        head = head_text(keyspaces)
        if not self._log.append(0, head, b""):
            head = self._log.read(0)[0]
        watched = read_head(head)
        if keyspaces and set(keyspaces) != set(watched):
            raise WrongLog(f"the log watches {_named(watched)}, and {_named(keyspaces)} was asked for")
        self._place, self._before = 1, head
        return watched

    def _play(self) -> None:
        """Applies all that stands in the log."""
        told = time.monotonic()
        for text in entries_from(self._log, self._place):
            self._apply(text)
            if time.monotonic() > told + TELLS_EVERY:
                told = time.monotonic()
                self._tell(f"{self.applied:,} lines of the log are applied so far")

    # ---- the thread that appends and applies

    def _run(self) -> None:
        why: BaseException | None = None
        try:
            while asked := self._next():
                self._take(asked)
        except Stopped as error:
            why = error
        except BaseException as error:  # no thread that waits is to wait for ever
            why = error
            raise
        finally:
            if self._left:
                self._waiting.put(self._left)
            self.ended.set_result(why)
            self._end_those_that_wait()
            with self.changed:
                self.changed.notify_all()

    def _next(self) -> list[Asked] | None:
        """Those who wait, as many as go in one entry; what others appended is applied meanwhile. None at the end."""
        while True:
            first, self._left = self._left, None
            try:
                first = first or self._waiting.get(timeout=LOOKS_EVERY)
            except queue.Empty:
                self._reached(self._follow)
                continue
            return None if first is None else self._with_more(first)

    def _with_more(self, first: Asked) -> list[Asked]:
        """One who waits, with those behind it that fit in the same entry."""
        found, lines, size = [first], len(first.lines), sum(map(written_size, first.lines))
        while not self._waiting.empty():
            more = self._waiting.get()
            if more is None:
                self._waiting.put(None)
                break
            lines, size = lines + len(more.lines), size + sum(map(written_size, more.lines))
            if lines > MOST_AT_ONCE or size > MOST_BYTES:
                self._left = more
                break
            found.append(more)
        return found

    def _take(self, asked: Sequence[Asked]) -> None:
        """Appends the lines of those who wait, applies them, and only then answers."""
        try:
            answers = iter(self._append([line for it in asked for line in it.lines]))
        except BaseException:
            _give_up(asked)
            raise
        for it in asked:
            it.answers.set_result([next(answers) for _ in it.lines])

    def _append(self, lines: Sequence[str]) -> list[str]:
        """The answers to lines, which are appended at the first free place, behind what others appended meanwhile."""
        while True:
            entry = Entry(self._place, sum_of(self._before), self._digest.hexdigest(), secrets.token_hex(8), lines)
            if self._reached(lambda: self._stands(entry.text())):
                return self._apply(entry.text())
            self._reached(self._follow)

    def _stands(self, text: bytes) -> bool:
        """Whether an entry stands at the next place: because it was put there now, or by an earlier try that wasn't answered."""
        return self._log.append(self._place, text, self._before) or self._log.read(self._place)[:1] == [text]

    def _follow(self) -> None:
        """Applies what others appended."""
        for text in entries_from(self._log, self._place):
            self._apply(text)

    def _reached(self, call: Callable[[], object]) -> object:
        """What a call gives once the log can be reached."""
        while True:
            try:
                result = call()
                if self.away is not None:
                    self._tell("the log answers again")
                    self._is_away(None)
                return result
            except LogUnreachable as why:
                if self.away is None:
                    self._tell(f"the log doesn't answer, and nothing is answered until it does: {why}")
                self._is_away(str(why))
                time.sleep(TRIES_EVERY)

    def _is_away(self, why: str | None) -> None:
        with self.changed:
            self.away = why
            self.changed.notify_all()

    def _apply(self, text: bytes) -> list[str]:
        """The answers to the lines of the entry at the next place. Raises `WrongLog` if it doesn't follow what was applied, or `CoreFailed`."""
        entry = read_entry(text, self._place)
        if entry.before != sum_of(self._before):
            raise WrongLog(f"the entry at place {self._place} of the log doesn't follow the one that stood before it: the log was changed")
        if entry.answers != self._digest.hexdigest():
            raise WrongLog(
                f"the answers to the {self.applied:,} lines before place {self._place} of the log were others where that entry was written: another build, "
                "or a machine without memory; this controller stops"
            )
        answers = self.core.apply(entry.lines)
        self._digest.update("".join(f"{it}\n" for it in answers).encode())
        self._place, self._before = self._place + 1, text
        applied = [Applied(self.applied + at, line, answer) for at, (line, answer) in enumerate(zip(entry.lines, answers), 1)]
        with self.changed:
            self.last.extend(applied)
            self.creates.update((words[1], it) for it in applied if it.answer == "ok" and (words := it.line.split())[0] == "create")
            self.applied += len(answers)
            self.changed.notify_all()
        return answers

    def _end_those_that_wait(self) -> None:
        """Tells all that wait, and will never be answered."""
        while True:
            try:
                asked = self._waiting.get_nowait()
            except queue.Empty:
                return
            if asked:
                asked.answers.set_exception(Ended())


def _give_up(asked: Sequence[Asked]) -> None:
    """Tells those who wait that they won't be answered."""
    for it in asked:
        it.answers.set_exception(Ended())


def _named(keyspaces: Sequence[str]) -> str:
    return " ".join(keyspaces) if keyspaces else "no keyspace"
