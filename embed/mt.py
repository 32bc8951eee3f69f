"""The controller mt in a Python program, over the shared object libmt.so (docs/EMBED.md).

    import mt

    with mt.Session(["commerce", "customer"]) as session:
        print(session.command("keyspace commerce"))

The shared object is the one that the variable MT_LIBRARY names, or else libmt.so beside this file, or out/libmt.so above it, where
`tools/build library` leaves it. It is looked for at the first call. Python 3.9 or newer, on x86-64 Linux.
"""
from __future__ import annotations

import ctypes
import enum
import functools
import os
import pathlib
import threading
import weakref
from collections.abc import Iterable
from typing import Any

LEAST_ROOM = 2416  # MT_ANSWER: the longest answer to a line, but for a document's
FIRST_ROOM = 1 << 16  # for the output of a script, where a longer one is run again


class Status(enum.IntEnum):
    """How a call ends, as mt.h numbers it."""

    DONE = 0
    MEMORY = 1
    ROOM = 2
    CLOSED = 3
    OPEN = 4
    NAMES = 5
    TOO_LONG = 6


TEXTS = {
    Status.MEMORY: "there is no memory for it, and nothing was done",
    Status.ROOM: "there is no room for the answer",
    Status.CLOSED: "the session is closed",
    Status.OPEN: "the session is open already",
    Status.NAMES: "a word is no name of a keyspace, or there are more than 31",
    Status.TOO_LONG: "the script has more than 1,048,576 bytes",
}


class Error(Exception):
    """The library did nothing; `status` says why."""

    def __init__(self, status: Status) -> None:
        super().__init__(TEXTS[status])
        self.status = status


class NoLibrary(Exception):
    """There is no shared object that can be loaded; the text says where one was looked for, and what is wrong with it."""


class Handle(ctypes.Structure):
    """A session as C holds it: `struct mt_session`."""

    _fields_ = [("at", ctypes.c_void_p), ("open", ctypes.c_bool)]


SIZE, TEXT, SESSION = ctypes.c_size_t, ctypes.c_char_p, ctypes.POINTER(Handle)
FORMS: dict[str, tuple[Any, list[Any]]] = {
    "mt_open": (ctypes.c_int32, [SESSION, TEXT, SIZE]),
    "mt_command": (ctypes.c_int32, [SESSION, TEXT, SIZE, TEXT, SIZE, ctypes.POINTER(SIZE)]),
    "mt_close": (None, [SESSION]),
    "mt_run": (ctypes.c_int32, [TEXT, SIZE, TEXT, SIZE, TEXT, SIZE, ctypes.POINTER(SIZE)]),
    "mt_version": (ctypes.c_int32, []),
}


def places() -> list[pathlib.Path]:
    """Where the shared object may be, in the order in which it is looked for."""
    if named := os.environ.get("MT_LIBRARY"):
        return [pathlib.Path(named).absolute()]
    own = pathlib.Path(__file__).resolve().parent
    return [own / "libmt.so", own.parent / "out/libmt.so"]


@functools.lru_cache(maxsize=None)
def library() -> ctypes.CDLL:
    """The shared object, loaded once. `NoLibrary` if there is none."""
    path = next((it for it in places() if it.exists()), None)
    if not path:
        raise NoLibrary(f"there is no {' and no '.join(map(str, places()))}: `tools/build library` makes out/libmt.so, and MT_LIBRARY may name another file")
    try:
        loaded = ctypes.CDLL(str(path), use_errno=True)  # so that ctypes.get_errno() tells whether it found no memory
        for name, (result, words) in FORMS.items():
            call = getattr(loaded, name)
            call.restype, call.argtypes = result, words
    except (OSError, AttributeError) as why:
        raise NoLibrary(f"{path} isn't the library that this module is for: {why}") from why
    return loaded


def checked(status: int) -> None:
    """Raises `Error` for any status but done."""
    if status != Status.DONE:
        raise Error(Status(status))


def bytes_of(text: str | bytes) -> bytes:
    """A text as the library reads it. Python's surrogates stand for bytes that are no UTF-8."""
    if isinstance(text, str):
        return text.encode("utf-8", "surrogateescape")
    if isinstance(text, bytes):
        return text
    raise TypeError(f"a text or bytes are wanted, not {type(text).__name__}")


def words_of(keyspaces: Iterable[str]) -> bytes:
    """Names of keyspaces as C gives them: words with spaces between. What would be none of them, or two, is no name."""
    if isinstance(keyspaces, (str, bytes)):
        raise TypeError("the keyspaces are a list of names, not one text")
    names = [bytes_of(name) for name in keyspaces]
    if not all(name and b" " not in name for name in names):
        raise Error(Status.NAMES)
    return b" ".join(names)


def line_of(text: str | bytes) -> bytes:
    """A line without its line end: one line feed, and one carriage return before that."""
    line = bytes_of(text)
    if line.endswith(b"\n"):
        line = line[:-2] if line.endswith(b"\r\n") else line[:-1]
    if b"\n" in line:
        raise ValueError("a line has no line feed but at its end")
    return line


class Session:
    """A run of the script language whose lines are handed in one at a time. It begins with nothing.

    It may be used by several threads, whose calls wait for one another. Who doesn't close it has it closed when it is collected.
    """

    def __init__(self, keyspaces: Iterable[str] = ()) -> None:
        """Opens it; the primaries of these keyspaces are watched. `Error` with `NAMES` or `MEMORY`."""
        words = words_of(keyspaces)
        self._library, self._handle = library(), Handle()
        self._lock, self._written = threading.Lock(), SIZE()
        self._room = ctypes.create_string_buffer(LEAST_ROOM)
        checked(self._library.mt_open(self._handle, words, len(words)))
        self._end = weakref.finalize(self, self._library.mt_close, self._handle)
        self._end.atexit = False  # a thread may still be in a call then, and the memory goes with the process

    def command(self, line: str | bytes) -> str:
        """The answer to a line, without its line feed; an empty text for a silent line. The line may end in a line end.

        `Error` with `CLOSED`, or with `MEMORY`, and then the line did nothing; a line that is refused is answered, and raises nothing.
        """
        asked = line_of(line)
        with self._lock:
            status = self._asked(asked)
            if status == Status.ROOM:
                self._room = ctypes.create_string_buffer(self._written.value)
                status = self._asked(asked)
            checked(status)
            return ctypes.string_at(self._room, self._written.value).decode("ascii").rstrip("\n")

    def _asked(self, line: bytes) -> int:
        return self._library.mt_command(self._handle, line, len(line), self._room, len(self._room), self._written)

    def close(self) -> None:
        """Closes it, if it is open."""
        with self._lock:
            self._end()

    def __enter__(self) -> Session:
        return self

    def __exit__(self, *_: object) -> None:
        self.close()


def run(script: str | bytes, keyspaces: Iterable[str] = ()) -> str:
    """What `mt run KEYSPACE.. < SCRIPT` writes. `Error` with `NAMES`, `MEMORY` or `TOO_LONG`, and then nothing was done."""
    words, asked, written, room = words_of(keyspaces), bytes_of(script), SIZE(), FIRST_ROOM
    while True:
        output = ctypes.create_string_buffer(room)
        status = library().mt_run(words, len(words), asked, len(asked), output, room, written)
        if status != Status.ROOM:
            checked(status)
            return ctypes.string_at(output, written.value).decode("ascii")
        room = written.value


def version() -> tuple[int, int, int]:
    """The library's version: major, minor and patch."""
    number = library().mt_version()
    return number // 1_000_000, number // 1_000 % 1_000, number % 1_000
