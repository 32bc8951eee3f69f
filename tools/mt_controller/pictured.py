"""The picture of what stands, gathered beside the controller while somebody looks at it."""
from __future__ import annotations

import json
import threading
import time
from dataclasses import dataclass

from mt_controller.controller import Controller
from mt_controller.core import CoreFailed
from mt_controller.following import Present
from mt_controller.growing import Growing
from mt_runs.program import ProgramFailed
from mt_runs.refusals import ScriptPage

EVERY = 0.25  # seconds from one column to the next at least: lines in between share one
LOOKED_AT = 3.0  # seconds for which who asked for the picture counts as one who looks at it
NO_MOVE = "No move stands. The picture begins with the next create that is answered ok."


@dataclass(frozen=True)
class Shown:
    """A picture that is told: how many there were before it, and its JSON."""

    number: int
    text: str


class Picture:
    """The picture of a controller's log. What fails in it is told in its place, and ends nothing."""

    def __init__(self, controller: Controller, name: str, page: ScriptPage) -> None:
        self._controller = controller
        self._growing = Growing(f"The moves of {name}", controller.watched, page)
        self._looked_at = 0.0
        self.shown = Shown(0, _text(0, None, "The picture is being asked for."))

    def start(self) -> None:
        """Begins to gather."""
        threading.Thread(target=self._run, name="picture", daemon=True).start()

    def look_at(self) -> None:
        """Somebody looks at it: it is kept up for some seconds."""
        self._looked_at = time.monotonic()
        with self._controller.changed:
            self._controller.changed.notify_all()

    def is_looked_at(self) -> bool:
        return time.monotonic() < self._looked_at + LOOKED_AT

    def _run(self) -> None:
        while not self._controller.ended.done():
            begun = time.monotonic()
            try:
                self._gather()
                self._show("")
            except (ProgramFailed, CoreFailed) as why:
                self._show(f"There is no new picture at the moment: {why}.")
            time.sleep(max(0.0, begun + EVERY - time.monotonic()))
            self._wait()

    def _wait(self) -> None:
        """Waits until lines were applied, and somebody looks."""
        controller, changed = self._controller, self._controller.changed
        with changed:
            while not controller.ended.done() and not (self.is_looked_at() and controller.applied != self._growing.applied):
                if not self.is_looked_at():
                    self._growing.forget()
                changed.wait(1.0)

    def _gather(self) -> None:
        """Adds a column. Raises `ProgramFailed` or `CoreFailed`."""
        controller = self._controller
        present = Present(controller.core.copy())
        with controller.changed:
            controller.changed.wait_for(lambda: controller.applied >= present.applied or controller.ended.done())
            lines = [it for it in controller.last if self._growing.applied < it.number <= present.applied]
            creates = list(controller.creates.values())
        try:
            self._growing.grow(present, lines, creates)
        except ProgramFailed:
            present.close()
            raise

    def _show(self, problem: str) -> None:
        facts = self._growing.document()
        self.shown = Shown(self.shown.number + 1, _text(self._growing.applied, facts, problem or ("" if facts else NO_MOVE)))


def _text(applied: int, facts: object, words: str) -> str:
    return json.dumps({"applied": applied, "facts": facts, "words": words}, separators=(",", ":"))
