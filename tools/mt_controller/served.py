"""A controller behind a page: what the page is told, and how it ends."""
from __future__ import annotations

import json
import queue
import re
import secrets
import signal
import threading
import time
from collections.abc import Callable
from http import HTTPStatus
from typing import Any

from mt_controller.asked import AskedLines, TooManyWait
from mt_controller.controller import LOOKS_EVERY, Applied, Controller
from mt_controller.growing import told_text
from mt_controller.pictured import Picture
from mt_controller.prompted import LoggedScript
from mt_controller.requests import Refused
from mt_controller.server import Listening, PageServer
from mt_picture.gathering import plain_refusals
from mt_picture.script import shown_text
from mt_runs.command_line import FAILED
from mt_runs.refusals import ScriptPage
from mt_runs.words import counted

ANSWERED_WITHIN = 1.0  # seconds, or a page asks again
ENDS_WITHIN = 5.0  # seconds for the lines that wait when it is told to end
TELLS_END = 1.0  # seconds in which pages still hear that it has ended
KEY = re.compile(r"[0-9a-f]{16,64}")
NOT_ASKED = "that isn't what the page asks"


class Service:
    """What the page asks of a controller, and is told."""

    def __init__(self, controller: Controller, name: str, script: LoggedScript, page: ScriptPage) -> None:
        self.lines = AskedLines(script, page)
        self.picture = Picture(controller, name, page)
        self.ended: str | None = None  # why it has
        self._controller, self._name, self._page = controller, name, page
        self._run = secrets.token_hex(8)  # by which a page knows that it is asking another one
        self.calls = {"/line": self.line, "/state": self.state, "/refusals": self.refusals}

    def line(self, asked: Any) -> bytes:
        """Takes a line, and tells what came of it if it is answered soon."""
        key, line = _members(asked, key=str, line=str)
        if not KEY.fullmatch(key):
            raise Refused(HTTPStatus.BAD_REQUEST, NOT_ASKED)
        if self.ended is not None:
            raise Refused(HTTPStatus.SERVICE_UNAVAILABLE, "the controller has ended")
        try:
            self.lines.ask(key, line)
        except TooManyWait as why:
            raise Refused(HTTPStatus.SERVICE_UNAVAILABLE, "too many lines wait already; this one wasn't taken") from why
        return _json({"run": self._run, "outcome": self.lines.told(key, ANSWERED_WITHIN)})

    def state(self, asked: Any) -> bytes:
        """What stands, as far as a page that has seen this many lines, and this picture, doesn't know it; and what came of lines that it waits for."""
        run, applied, picture, waits = _members(asked, run=str, applied=int, picture=int, waits=list)
        if len(waits) > 100 or not all(isinstance(it, str) and KEY.fullmatch(it) for it in waits):
            raise Refused(HTTPStatus.BAD_REQUEST, NOT_ASKED)
        self.picture.look_at()
        controller, shown = self._controller, self.picture.shown
        knows = run == self._run
        with controller.changed:
            told = {
                "run": self._run,
                "name": self._name,
                "watched": controller.watched,
                "applied": controller.applied,
                "away": controller.away,
                "ended": self.ended,
                "lines": [_line(it) for it in controller.last if not knows or it.number > applied],
                "outcomes": {it: self.lines.told(it) for it in waits} if knows else {},
            }
        more = f',"picture":{{"number":{shown.number},"shown":{shown.text}}}' if not knows or picture != shown.number else ""
        return _json(told)[:-1] + more.encode() + b"}"

    def refusals(self, asked: Any) -> bytes:
        """What docs/SCRIPT.md says of each refusal."""
        _members(asked)
        return _json(plain_refusals(self._page.refusals.values()))


def _line(it: Applied) -> list[object]:
    return [it.number, told_text(shown_text(it.line.removesuffix("\r"))), told_text(it.answer)]


def _members(asked: Any, **types: type) -> list[Any]:
    """The members of an object that has just these, of these types."""
    if not isinstance(asked, dict) or list(asked) != list(types) or not all(type(asked[name]) is kind for name, kind in types.items()):
        raise Refused(HTTPStatus.BAD_REQUEST, NOT_ASKED)
    return list(asked.values())


def _json(told: object) -> bytes:
    return json.dumps(told, separators=(",", ":")).encode()


def serve(controller: Controller, service: Service, at: Listening, tell: Callable[[str], None]) -> int:
    """Serves the page until the controller ends, or is told to by SIGINT or SIGTERM; the status. Raises `OSError` where it can't listen."""
    ends: queue.SimpleQueue[int | None] = queue.SimpleQueue()
    with PageServer(at, service.calls, tell) as server:
        for number in (signal.SIGINT, signal.SIGTERM):
            if signal.getsignal(number) != signal.SIG_IGN:
                signal.signal(number, lambda told, _: ends.put(told))
        controller.ended.add_done_callback(lambda _: ends.put(None))
        threading.Thread(target=server.serve_forever, args=(0.1,), daemon=True).start()
        controller.start()
        service.picture.start()
        tell(f"listens on {server.url()}")
        told = _first(ends)
        service.ended = f"it was ended by {signal.Signals(told).name}" if told else str(controller.ended.result())
        _end(controller, service, tell)
        server.shutdown()
    return 128 + told if told else FAILED


def _first(ends: queue.SimpleQueue[int | None]) -> int | None:
    """What ends the server. It is looked for again and again, as a signal that another thread of the process is given wakes nobody who waits."""
    while True:
        try:
            return ends.get(timeout=LOOKS_EVERY)
        except queue.Empty:
            continue


def _end(controller: Controller, service: Service, tell: Callable[[str], None]) -> None:
    """Ends a controller behind what was asked, if the log answers in time, and lets pages hear of it."""
    closing = threading.Thread(target=controller.close, daemon=True)
    closing.start()
    closing.join(ENDS_WITHIN)
    if left := service.lines.waiting():
        tell(f"{counted(left, 'line was', 'lines were')} asked for and not answered; what came of that the log says")
    if service.picture.is_looked_at():
        time.sleep(TELLS_END)
