"""Of which commit an archive is, and what is known of it."""
from __future__ import annotations

import hashlib
import pathlib
import shutil
import subprocess
from dataclasses import dataclass
from datetime import datetime, timezone

GATE = "out/gate"
NOT_KNOWN = "not known"
KEYS = ("commit", "kit", "program", "tests")


class NoCommit(Exception):
    """The folder isn't a repository of git with a commit."""


@dataclass(frozen=True)
class Commit:
    """The commit that is checked out: its name, its date in seconds since 1970, and whether the work tree is as it is there."""

    name: str
    date: int
    is_clean: bool

    @property
    def day(self) -> str:
        """The day of the commit."""
        return datetime.fromtimestamp(self.date, timezone.utc).strftime("%Y-%m-%d")


def git(top: pathlib.Path, *words: str) -> str:
    """What git says; `NoCommit` if it ends otherwise than well."""
    try:
        ended = subprocess.run(["git", *words], cwd=top, capture_output=True, text=True, check=False)
    except OSError as error:
        raise NoCommit(f"git can't be run: {error.strerror}") from error
    if ended.returncode:
        raise NoCommit(f"git {words[0]}: {ended.stderr.strip()[-300:]}")
    return ended.stdout


def commit_of(top: pathlib.Path) -> Commit:
    """The commit of the repository. Raises `NoCommit`."""
    if pathlib.Path(git(top, "rev-parse", "--show-toplevel").strip()).resolve() != top.resolve():
        raise NoCommit(f"{top} isn't the top of a repository")
    name, date = git(top, "log", "-1", "--format=%H %ct").split()
    return Commit(name, int(date), not git(top, "status", "--porcelain"))


def files_of(top: pathlib.Path, paths: tuple[str, ...]) -> list[str]:
    """The files at or below these paths that git knows, or would take in."""
    listed = git(top, "ls-files", "-z", "--cached", "--others", "--exclude-standard", "--", *paths)
    return sorted({name for name in listed.split("\0") if name and (top / name).is_file()})


def kit() -> str:
    """The kit whose `rt` is on the path."""
    if not shutil.which("rt"):
        return NOT_KNOWN
    return subprocess.run(["rt", "version"], stdout=subprocess.PIPE, text=True, check=False).stdout.strip() or NOT_KNOWN


def gate_of(top: pathlib.Path, commit: Commit) -> dict[str, str]:
    """What `./test` left when it passed on this commit, by the words of `KEYS`; nothing if that isn't known."""
    if not commit.is_clean or not (top / GATE).is_file():
        return {}
    lines = (line.partition(" ") for line in (top / GATE).read_text(encoding="utf-8").splitlines())
    found = {key: value for key, _, value in lines}
    return found if set(found) == set(KEYS) and found["commit"] == commit.name else {}


def checksum(path: pathlib.Path) -> str:
    """The SHA-256 of a file."""
    return hashlib.sha256(path.read_bytes()).hexdigest()
