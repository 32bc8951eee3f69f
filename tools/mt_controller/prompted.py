"""The prompt over a log: `tools/prompt` whose lines stay."""
from __future__ import annotations

from collections.abc import Callable, Sequence

from mt_controller.controller import Controller, Ended, NotTaken, Stopped
from mt_controller.core import CoreFailed
from mt_controller.logs import Log, LogUnreachable
from mt_controller.opened import lines_of
from mt_prompt.typed import Script
from mt_runs.program import ProgramFailed


class LoggedScript(Script):
    """The lines of a log, of this prompt and of all other controllers. Those that are refused stand in it too."""

    def __init__(self, controller: Controller, opened: Callable[[], Log]) -> None:
        """`opened` opens the log once more, to read its lines."""
        self._controller, self._opened = controller, opened

    @property
    def watchers(self) -> tuple[str, ...]:
        return self._controller.watched

    @property
    def lines(self) -> Sequence[str]:
        try:
            log = self._opened()
            try:
                return list(lines_of(log))
            finally:
                log.close()
        except (*Stopped, LogUnreachable) as why:
            raise ProgramFailed(str(why)) from why

    def ask(self, lines: Sequence[str]) -> list[str]:
        try:
            return self._controller.core.ask(lines) if lines else []
        except CoreFailed as why:
            raise ProgramFailed(str(why)) from why

    def take(self, line: str) -> str:
        try:
            return self._controller.submit([self.reading(line)]).result()[0]
        except NotTaken as why:
            raise ProgramFailed(str(why)) from why
        except Ended as why:
            raise ProgramFailed("the controller has ended; whether the line stands in the log isn't known") from why

    def take_comment(self, line: str) -> None:
        """A comment isn't written to the log."""

    def take_back(self) -> str | None:
        raise ProgramFailed("what stands in the log stays: `undo`, `reverse` and `cancel` lead back")

    def workflows(self) -> set[str]:
        with self._controller.changed:
            return set(self._controller.creates)
