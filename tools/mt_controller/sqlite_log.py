"""A log in a file of SQLite, for controllers on one machine."""
from __future__ import annotations

import contextlib
import pathlib
import sqlite3
from collections.abc import Iterator, Sequence

from mt_controller.entries import WrongLog
from mt_controller.logs import LogFailed, LogUnreachable, changed_at, in_order

APPLICATION = 0x6D746C67  # "mtlg", by which SQLite's tools know the file
AT_ONCE = 200  # entries
PATIENCE = 5  # seconds for which another controller may hold the file, before it is told; one that was stopped may for long
LOCKED = "database is locked"  # what SQLite then says; nothing was written
TABLE = "CREATE TABLE entries (place INTEGER PRIMARY KEY, entry BLOB NOT NULL)"


class SqliteLog:
    """The entries of a file. What `append` has put there stays, even if the machine loses its power."""

    def __init__(self, path: str) -> None:
        """Opens the file, or makes it. Raises `WrongLog` for a file that is no log, `LogFailed` or `LogUnreachable` for one that can't be opened."""
        self.name, self._path = f"sqlite:{path}", path
        with self._told():
            # several threads may hand it on, but only one uses it at a time
            self._file = sqlite3.connect(path, timeout=PATIENCE, isolation_level=None, check_same_thread=False)
            self._open()

    def _open(self) -> None:
        """Makes the file a log if it is empty."""
        if not self._is_log():
            with self._transaction():
                if not self._is_log():
                    self._file.execute(f"PRAGMA application_id = {APPLICATION}")
                    self._file.execute(TABLE)
        if self._file.execute("PRAGMA journal_mode = WAL").fetchone()[0] != "wal":
            raise LogFailed(f"{self._path}: SQLite can't keep its write-ahead log there")
        self._file.execute("PRAGMA synchronous = FULL")

    def _is_log(self) -> bool:
        """Whether the file is a log already, not an empty one. Raises `WrongLog` if it is something else."""
        (application,) = self._file.execute("PRAGMA application_id").fetchone()
        tables = self._file.execute("SELECT sql FROM sqlite_master").fetchall()
        is_log = application == APPLICATION and tables == [(TABLE,)]
        if not is_log and (application or tables):
            raise WrongLog(f"{self._path} is a file of SQLite, but no log of a controller")
        return is_log

    def read(self, place: int) -> Sequence[bytes]:
        with self._told():
            found = self._file.execute("SELECT place, entry FROM entries WHERE place >= ? ORDER BY place LIMIT ?", (place, AT_ONCE)).fetchall()
        return in_order(found, place)

    def append(self, place: int, text: bytes, before: bytes) -> bool:
        with self._told(), self._transaction():
            stand = dict(self._file.execute("SELECT place, entry FROM entries WHERE place >= ? ORDER BY place LIMIT 2", (place - 1,)))
            if place in stand:
                return False
            if place and stand.get(place - 1) != before:
                raise changed_at(place - 1)
            self._file.execute("INSERT INTO entries VALUES (?, ?)", (place, text))
            return True

    def close(self) -> None:
        self._file.close()

    @contextlib.contextmanager
    def _transaction(self) -> Iterator[None]:
        """All of it is written, or nothing."""
        self._file.execute("BEGIN IMMEDIATE")
        try:
            yield
            self._file.execute("COMMIT")
        except BaseException:
            if self._file.in_transaction:
                self._file.execute("ROLLBACK")
            raise

    @contextlib.contextmanager
    def _told(self) -> Iterator[None]:
        """What SQLite says of a file that it can't use."""
        try:
            yield
        except sqlite3.Error as why:
            kind = LogUnreachable if str(why) == LOCKED else LogFailed
            raise kind(f"{self._path}: {why}") from why
