"""Lines from standard input, whose answers are written in their order."""
from __future__ import annotations

import queue
import sys
import threading
from collections.abc import Callable, Iterator
from concurrent.futures import Future

from mt_controller.controller import LOOKS_EVERY, Controller, Ended, NotTaken
from mt_runs.program import is_silent

MOST_THAT_WAIT = 4000  # lines that are read before the first of them is answered

Waiting = queue.Queue["Future[list[str]] | NotTaken | None"]


def answer_input(controller: Controller, tell: Callable[[str], None]) -> bool:
    """Answers the lines of standard input until it ends: each once it stands in the log and is applied. Whether all were taken and answered.

    A line that can't stand in an entry is told, and nothing of it is written; the lines behind it are answered.
    """
    waiting: Waiting = queue.Queue(MOST_THAT_WAIT)
    threading.Thread(target=_hand_in, args=(controller, waiting), daemon=True).start()
    were_taken = True
    while (it := _next(controller, waiting)) is not None:
        if isinstance(it, NotTaken):
            tell(str(it))
            were_taken = False
            continue
        try:
            sys.stdout.write(f"{it.result()[0]}\n")
        except Ended:
            return False
        sys.stdout.flush()
    return were_taken


def _next(controller: Controller, waiting: Waiting) -> Future[list[str]] | NotTaken | None:
    """What is to be answered next; None at the end of the input, or of the controller, who may end while no line comes."""
    while True:
        try:
            return waiting.get(timeout=LOOKS_EVERY)
        except queue.Empty:
            if controller.ended.done():
                return None


def _hand_in(controller: Controller, waiting: Waiting) -> None:
    """Hands in the lines of standard input."""
    try:
        for number, line in enumerate(_lines(), 1):
            if is_silent(line):
                continue
            try:
                waiting.put(controller.submit([line]))
            except NotTaken as why:
                waiting.put(NotTaken(f"line {number}: {why}"))
    finally:
        waiting.put(None)


def _lines() -> Iterator[str]:
    """The lines of standard input, as a script has them. Of the last one a carriage return belongs to its end only before a line feed."""
    # by a buffer of its own: the interpreter closes that of sys.stdin as it ends, and can't while this thread waits in it
    for line in open(sys.stdin.fileno(), "rb", closefd=False):
        whole = line[:-1] if line.endswith(b"\n") else line + b"\r" * line.endswith(b"\r")
        yield whole.decode("utf-8", "surrogateescape")
