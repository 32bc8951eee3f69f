"""The controller's core in a process of its own: one session of the library, which lines are applied to, and copies of it that answer questions.

A copy is a fork: what a question changes there is gone with it, whatever came before, without playing any line again. The process that forks has one thread,
so that a copy is whole. A copy may also stay for some while, and be asked again and again of the state that it has.
"""
from __future__ import annotations

import ctypes
import errno
import multiprocessing
import os
import pathlib
import signal
import socket
import sys
import threading
from collections.abc import Sequence
from multiprocessing import reduction
from multiprocessing.connection import Connection
from typing import Any

TOP = pathlib.Path(__file__).resolve().parents[2]
# the module stands beside the library where mt was unpacked or installed
sys.path.insert(0, str(TOP / "lib" if (TOP / "lib/mt.py").exists() else TOP / "embed"))
import mt

Answered = list[str]
APPLY, ASK, COPY = "apply", "ask", "copy"  # what the core's process is told to do
SPARE = 1 << 20  # bytes that are kept to tell with that there is no memory
NO_MEMORY = "there was no memory for a line, as there may be elsewhere, so this controller stops"


class CoreFailed(Exception):
    """The core can't go on: there was no memory, or its process ended. The text says which; no line may be applied any more."""


class Core:
    """A session in a process of its own. Several threads may use it, whose calls wait for one another."""

    def __init__(self, watched: Sequence[str]) -> None:
        """Begins with nothing; the primaries of these keyspaces are watched. Raises `CoreFailed`. No thread may run yet."""
        try:
            mt.library()
        except mt.NoLibrary as why:
            raise CoreFailed(str(why)) from why
        context = multiprocessing.get_context("fork")
        self._connection, theirs = context.Pipe()
        self._process = context.Process(target=_serve, args=(theirs, self._connection, tuple(watched)), daemon=True)
        self._process.start()
        theirs.close()
        self._lock = threading.Lock()
        _told(self._connection)

    def apply(self, lines: Sequence[str]) -> Answered:
        """The answers to lines, which are applied in their order. Raises `CoreFailed`; then some may have been."""
        return self._asked(APPLY, lines)

    def ask(self, lines: Sequence[str]) -> Answered:
        """The answers to lines, of which nothing stays. Raises `CoreFailed`."""
        return self._asked(ASK, lines)

    def copy(self) -> Copy:
        """A copy that stays as the core is now, until it is closed. Raises `CoreFailed`."""
        with self._lock:
            applied = self._answered(COPY, ())
            try:
                return Copy(Connection(reduction.recv_handle(self._connection)), applied)
            except (EOFError, OSError, RuntimeError) as why:
                raise CoreFailed("the core's process has ended") from why

    def close(self) -> None:
        """Ends the process, which has nothing to lose."""
        self._connection.close()
        self._process.kill()
        self._process.join()

    def _asked(self, what: str, lines: Sequence[str]) -> Answered:
        with self._lock:
            return self._answered(what, lines)

    def _answered(self, what: str, lines: Sequence[str]) -> Any:
        try:
            self._connection.send((what, lines))
        except OSError as why:
            raise CoreFailed(f"the core's process has ended: {why}") from why
        return _told(self._connection)


class Copy:
    """The core as it was behind its first `applied` lines, in a process of its own. One thread may use it."""

    def __init__(self, connection: Connection, applied: int) -> None:
        self._connection, self.applied = connection, applied

    def ask(self, lines: Sequence[str]) -> Answered:
        """The answers to lines, of which nothing stays. Raises `CoreFailed`."""
        try:
            self._connection.send((ASK, lines))
        except OSError as why:
            raise CoreFailed(f"a copy of the core has ended: {why}") from why
        return _told(self._connection)

    def close(self) -> None:
        """Ends the copy."""
        self._connection.close()


def _told(connection: Connection) -> Any:
    """What a process answers. Raises `CoreFailed` if it has ended, or tells that it can't."""
    try:
        told = connection.recv()
    except (EOFError, OSError) as why:
        raise CoreFailed("the core's process has ended") from why
    if isinstance(told, str):
        raise CoreFailed(told)
    return told


def _serve(connection: Connection, other_end: Connection, watched: tuple[str, ...]) -> None:
    """Answers what is asked over a connection, until its other end is closed."""
    other_end.close()
    signal.signal(signal.SIGINT, signal.SIG_IGN)  # it ends with who asks it
    spare = bytearray(SPARE)
    try:
        session = mt.Session(watched)
        connection.send([])
        _answer_all(connection, session)
    except mt.Error as why:
        connection.send(str(why))
    except MemoryError:
        del spare
        connection.send(NO_MEMORY)
    except (EOFError, OSError):
        pass


def _answer_all(connection: Connection, session: mt.Session) -> None:
    """Answers until nobody asks any more. Raises `mt.Error`, `MemoryError`, and `EOFError` or `OSError` at the end."""
    applied = 0
    copies: list[int] = []
    while True:
        what, lines = connection.recv()
        if what == APPLY:
            connection.send(_answers(session, lines))
            applied += len(lines)
        elif what == ASK:
            _answer_by_copy(connection, session, lines)
        else:
            copies = [it for it in copies if os.waitpid(it, os.WNOHANG) == (0, 0)]
            copies += _handed_out(connection, session, applied)


def _answer_by_copy(connection: Connection, session: mt.Session, lines: Sequence[str]) -> None:
    """Answers lines in a copy of this process, which then ends."""
    try:
        copy = os.fork()
    except OSError as why:
        connection.send(f"there is no copy of the core: {why}")
        return
    if copy == 0:
        _answer_and_end(connection, session, lines)
    _, status = os.waitpid(copy, 0)
    if status:
        connection.send("a copy of the core ended before it had answered")


def _answers(session: mt.Session, lines: Sequence[str]) -> Answered:
    """The answers to lines. Raises `mt.Error`, and `MemoryError` if the library found no memory for something of them and answered all the same:
    with a refusal, or a turn of a stream that ends early, which it wouldn't be where there is memory.
    """
    ctypes.set_errno(0)
    answers = [session.command(f"{line}\n") for line in lines]
    if ctypes.get_errno() == errno.ENOMEM:
        raise MemoryError
    return answers


def _answer_and_end(connection: Connection, session: mt.Session, lines: Sequence[str]) -> None:
    """Answers lines in a copy, and ends it at once."""
    status = 1
    try:
        connection.send(_answers(session, lines))
        status = 0
    finally:
        os._exit(status)


def _handed_out(connection: Connection, session: mt.Session, applied: int) -> list[int]:
    """The process of a copy that stays, whose other end is handed to who asked; none if there can't be one, which is told."""
    try:
        theirs, ours = socket.socketpair()
        copy = os.fork()
    except OSError as why:
        connection.send(f"there is no copy of the core: {why}")
        return []
    if copy == 0:
        theirs.close()
        connection.close()
        _stay(Connection(ours.detach()), session)
    ours.close()
    connection.send(applied)
    reduction.send_handle(connection, theirs.fileno(), os.getppid())
    theirs.close()
    return [copy]


def _stay(connection: Connection, session: mt.Session) -> None:
    """Answers in a copy what is asked of it, until its other end is closed; then the copy ends."""
    try:
        while True:
            _, lines = connection.recv()
            _answer_by_copy(connection, session, lines)
    finally:
        os._exit(0)
