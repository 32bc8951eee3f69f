"""Lines that a page asks for. Each is answered by a thread of its own, so that no request is held as long as a line waits for the log."""
from __future__ import annotations

import threading
from collections.abc import Sequence
from concurrent.futures import Future, TimeoutError
from dataclasses import asdict, dataclass
from typing import Any

from mt_controller.entries import is_line
from mt_controller.prompted import LoggedScript
from mt_prompt.prompt import SHORT_LINES, meanings
from mt_runs.program import ProgramFailed
from mt_runs.refusals import ScriptPage

MOST_THAT_WAIT = 20
MOST_KNOWN = 200  # lines of which it is known what came of them


class TooManyWait(Exception):
    """So many lines wait that no more is taken."""


@dataclass(frozen=True)
class Taken:
    """A line that was taken as it stands in the log, its answer, and what that means if it is a refusal."""

    line: str
    answer: str
    means: Sequence[tuple[str, str]]


@dataclass(frozen=True)
class Outcome:
    """What came of a line of a page: those that it stood for, as far as they were taken, and why it wasn't answered if it wasn't."""

    taken: Sequence[Taken]
    problem: str | None = None


class AskedLines:
    """The lines that pages ask for, by keys of the pages' own. Several threads may use it."""

    def __init__(self, script: LoggedScript, page: ScriptPage) -> None:
        self._script, self._page = script, page
        self._lock = threading.Lock()
        self._asked: dict[str, Future[Outcome]] = {}

    def ask(self, key: str, line: str) -> None:
        """Asks for a line; a key that was asked for before asks for nothing more. Raises `TooManyWait`."""
        with self._lock:
            if key in self._asked:
                return
            if self.waiting() >= MOST_THAT_WAIT:
                raise TooManyWait
            for old in [it for it, outcome in self._asked.items() if outcome.done()][:-MOST_KNOWN]:
                del self._asked[old]
            outcome = self._asked[key] = Future()
        threading.Thread(target=lambda: outcome.set_result(self._outcome(line.strip())), name="line", daemon=True).start()

    def waiting(self) -> int:
        """How many lines aren't answered yet."""
        return sum(not it.done() for it in list(self._asked.values()))

    def told(self, key: str, patience: float = 0.0) -> dict[str, Any] | None:
        """What came of the line of a key, if that is known within some seconds; of a key that isn't known that it isn't."""
        outcome = self._asked.get(key)
        if outcome is None:
            return asdict(Outcome([], "the line didn't come to the controller, or so long ago that it isn't known"))
        try:
            return asdict(outcome.result(patience))
        except TimeoutError:
            return None

    def _outcome(self, line: str) -> Outcome:
        """Takes a line, or those that a short one stands for, one behind the other."""
        taken: list[Taken] = []
        if not is_line(line):
            return Outcome(taken, "that is no line: it is empty, or a comment, or has a line end within")
        try:
            for full in self._script.filled_in(line):
                answer = self._script.take(full)
                means = [(name, text.replace("`", "")) for name, text in meanings(self._page, answer, full.split()[0], SHORT_LINES)]
                taken.append(Taken(full, answer, means))
        except ProgramFailed as why:
            return Outcome(taken, str(why))
        return Outcome(taken)
