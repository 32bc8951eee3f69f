"""The archives that `tools/release` makes: their bytes, what they hold, and what RELEASE says in them."""
from __future__ import annotations

import ctypes
import hashlib
import os
import pathlib
import re
import shutil
import subprocess
import tarfile
from collections.abc import Iterator
from typing import Optional

from mt_release.origin import commit_of, gate_of

TOP = pathlib.Path(__file__).resolve().parent.parent
BUILT = ("out/libmt.a", "out/libmt.so", "out/mt.wasm", "out/mt.html")
PROVED = "crates/mt_program/out/mt_program"
DATE = 1_790_000_000
SHOWN = 60  # lines of a fault
# What is tried, and whether it is as it must be; None if it was skipped.
Case = tuple[str, Optional[bool]]


def ran(words: list[object], cwd: pathlib.Path, **how: object) -> subprocess.CompletedProcess[str]:
    """A command that is run; what it says on either stream is its output."""
    streams = {"stdin": subprocess.DEVNULL, "stdout": subprocess.PIPE, "stderr": subprocess.STDOUT, "text": True, "errors": "replace"}
    return subprocess.run([str(word) for word in words], cwd=cwd, **{**streams, **how})


class Copy:
    """A copy of this repository's files that is a repository with one commit. What is built of it has the time of now."""

    def __init__(self, at: pathlib.Path, program: pathlib.Path, of: pathlib.Path = TOP) -> None:
        self.at = at
        shutil.copytree(of, at, ignore=shutil.ignore_patterns(".git", "out"), symlinks=True)
        self.git("init", "--quiet")
        self.git("add", "--all")
        self.commit()
        self.put_built(program)

    def git(self, *words: str, **variables: str) -> str:
        who = ["-c", "user.name=a", "-c", "user.email=a@b", "-c", "commit.gpgsign=false", "-c", "gc.auto=0"]
        return subprocess.run(["git", *who, *words], cwd=self.at, env={**os.environ, **variables}, stdout=subprocess.PIPE, check=True, text=True).stdout.strip()

    def commit(self) -> None:
        """Commits what is there, at a time that is always the same."""
        date = f"{DATE} +0000"
        self.git("commit", "--quiet", "--all", "--allow-empty", "--message=a", GIT_AUTHOR_DATE=date, GIT_COMMITTER_DATE=date)

    def put_built(self, program: pathlib.Path) -> None:
        for name in BUILT:
            (self.at / name).parent.mkdir(exist_ok=True)
            shutil.copy(TOP / name, self.at / name)
        (self.at / PROVED).parent.mkdir(exist_ok=True)
        shutil.copy(program, self.at / PROVED)

    def run(self, *words: object, **how: object) -> subprocess.CompletedProcess[str]:
        """A call of tools/release."""
        return ran([self.at / "tools/release", *words], how.pop("cwd", self.at), **how)

    def release(self, to: pathlib.Path, *words: object, **how: object) -> pathlib.Path | None:
        """The archive that a call makes in a folder, if it makes one."""
        done = self.run("-o", to, *words, **how)
        if done.returncode:
            print("\n".join(done.stdout.splitlines()[:SHOWN]))
            return None
        return pathlib.Path(done.stdout.splitlines()[-1])

    def says(self, to: pathlib.Path, *words: object) -> dict[str, str]:
        """What RELEASE says in the archive that a call makes, by its words."""
        made = self.release(to, *words)
        return said_in(made) if made else {}

    def is_refused(self, to: pathlib.Path, told: str, **how: object) -> bool:
        """Whether a call ends with status 1, says this, and makes no archive."""
        done = self.run("-o", to, **how)
        return done.returncode == 1 and told in done.stdout and not list(to.glob("*"))


def unpack(archive: pathlib.Path, to: pathlib.Path) -> pathlib.Path:
    """Unpacks an archive with tar; gives the folder that it makes."""
    to.mkdir()
    subprocess.run(["tar", "xzf", archive, "-C", to], check=True)
    return next(to.iterdir())


def said_in(archive: pathlib.Path) -> dict[str, str]:
    """What RELEASE says in an archive, by its words."""
    with tarfile.open(archive) as tar:
        name = next(it for it in tar.getnames() if it.endswith("/RELEASE"))
        text = tar.extractfile(name).read().decode()
    return {key: value for key, value in (line.split(None, 1) for line in text.splitlines())}


def is_plain(archive: pathlib.Path) -> bool:
    """Whether nothing in an archive is of who made it, where or when."""
    with tarfile.open(archive) as tar:
        entries = tar.getmembers()
    folder = archive.name.removesuffix(".tar.gz")
    names = [it.name for it in entries]
    owners = {(it.uid, it.gid, it.uname, it.gname, it.mtime) for it in entries}
    modes = {(it.type, it.mode) for it in entries}
    wanted = {(tarfile.DIRTYPE, 0o755), (tarfile.REGTYPE, 0o644), (tarfile.REGTYPE, 0o755), (tarfile.SYMTYPE, 0o777)}
    ordered = sorted(names, key=lambda it: it.split("/"))
    is_below = all(it == folder or it.startswith(f"{folder}/") for it in names)
    # no name, no time and no more in the head of the gzip format
    head = archive.read_bytes()[:10]
    return names == ordered and owners == {(0, 0, "", "", DATE)} and modes == wanted and is_below and head[:8] == b"\x1f\x8b\x08\0\0\0\0\0"


def has_sums(folder: pathlib.Path) -> bool:
    """Whether SHA256SUMS has each file but itself once, with its sum."""
    there = {str(path.relative_to(folder)): path for path in folder.rglob("*") if path.is_file() and not path.is_symlink()}
    lines = (folder / "SHA256SUMS").read_text().splitlines()
    wanted = [f"{hashlib.sha256(path.read_bytes()).hexdigest()}  {name}" for name, path in sorted(there.items()) if name != "SHA256SUMS"]
    return lines == wanted


def same_bytes(room: pathlib.Path, copy: Copy, made: pathlib.Path, program: pathlib.Path) -> Iterator[Case]:
    """That others make the same archive."""
    strange = {**os.environ, "TZ": "Asia/Kathmandu", "LC_ALL": "C", "PYTHONHASHSEED": "7"}
    again = copy.release(room / "again", cwd=room, env=strange, umask=0o077)
    yield "another user makes the same bytes", again is not None and again.read_bytes() == made.read_bytes()
    other = Copy(room / "another place" / "a copy", program, copy.at)
    other_made = other.release(room / "other")
    yield "another place makes the same bytes", other_made is not None and other_made.read_bytes() == made.read_bytes()


def versions(made: pathlib.Path, library: pathlib.Path) -> bool:
    """Whether the archive, the newest heading of CHANGELOG.md and the library have the same version."""
    told = ctypes.CDLL(str(library)).mt_version()
    version = f"{told // 1_000_000}.{told // 1000 % 1000}.{told % 1000}"
    heading = re.search(r"^## (.*)$", (TOP / "CHANGELOG.md").read_text(), re.M)[1]
    return version == heading == said_in(made)["version"] and made.name == f"mt-{version}-x86_64-linux.tar.gz"


def what_is_told(room: pathlib.Path, copy: Copy, made: pathlib.Path) -> Iterator[Case]:
    """What RELEASE says, of the tests above all."""
    said = said_in(made)
    head = copy.git("rev-parse", "HEAD")
    kit = ran(["rt", "version"], room).stdout.strip() if shutil.which("rt") else "not known"
    yield "RELEASE has the commit and the kit", (said["commit"], said["kit"], said["date"]) == (head, f"{kit}, as this was packed", "2026-09-21")
    yield "RELEASE has what is proved", said["bin/mt"].startswith("proved") and said["lib/libmt.a"] == "built without running the proofs"
    yield "of tests nothing is known", said["tests"] == "not known" and said["tree"] == "as the commit has it"
    gate, sums = copy.at / "out/gate", hashlib.sha256((copy.at / PROVED).read_bytes()).hexdigest()
    text = f"commit {head}\nkit some kit\nprogram {sums}\ntests 7 passed, 0 failed\n"
    gate.write_text(text)
    said = copy.says(room / "passed")
    yield "tests that passed", said["tests"] == "passed on this commit, with the kit some kit: 7 passed, 0 failed"
    yield "the program of the tests", said["bin/mt"].startswith("proved") and said["bin/mt"].endswith("; the one that these tests built and ran")
    yield "the verdict is read", gate_of(copy.at, commit_of(copy.at))["tests"] == "7 passed, 0 failed"
    for name, other in (("another commit", text.replace(head, "0" * 40)), ("a cut verdict", text[:-30]), ("an empty one", "")):
        gate.write_text(other)
        yield f"the verdict of {name}", gate_of(copy.at, commit_of(copy.at)) == {}
    gate.write_text(text.replace(sums, "0" * 64))
    (copy.at / "untracked").touch()
    said = copy.says(room / "dirty", "--dirty")
    yield "a work tree that differs, packed", said["tree"].startswith("CHANGED") and said["tests"] == "not known"
    (copy.at / "untracked").unlink()
    said = copy.says(room / "other_program")
    yield "another program than that of the tests", said["tests"] != "not known" and "these tests" not in said["bin/mt"]
    gate.unlink()


def refusals(room: pathlib.Path, copy: Copy, program: pathlib.Path) -> Iterator[Case]:
    """What isn't packed."""
    (copy.at / "untracked").touch()
    yield "a file that isn't committed", copy.is_refused(room / "refused", "differs from its commit")
    (copy.at / "untracked").unlink()
    changes = copy.at / "CHANGELOG.md"
    text = changes.read_text()
    changes.write_text(f"{text}\n")
    yield "a changed file", copy.is_refused(room / "refused", "differs from its commit")
    changes.write_text(re.sub(r"^## .*$", "## 2026-11-30", text, count=1, flags=re.M))
    copy.commit()
    yield "no version", copy.is_refused(room / "refused", "is no version")
    changes.write_text(re.sub(r"^## .*$", "## 9.9.9", text, count=1, flags=re.M))
    (copy.at / "crates/mt/src/version.rt").write_text("pub const VERSION: [i32; 3] = [9, 9, 8];\n")
    copy.git("add", "--all")
    copy.commit()
    yield "two versions", copy.is_refused(room / "refused", "says 9.9.8")
    copy.git("reset", "--quiet", "--hard", "HEAD~2")
    copy.put_built(program)
    without = {**os.environ, "PATH": f"{pathlib.Path(shutil.which('git')).parent}:/usr/bin:/bin"}
    os.utime(copy.at / PROVED, (1, 1))
    yield "sources that are newer, and no kit", copy.is_refused(room / "refused", "./mt help ended", env=without)
    shutil.copy(program, copy.at / "out/mt_unproved")
    yield "a program that isn't proved", copy.says(room / "unproved")["bin/mt"] == "built without running the proofs"
    shutil.copy("/bin/true", copy.at / "out/mt_unproved")
    yield "another program", copy.is_refused(room / "refused", "isn't mt")
    shutil.rmtree(copy.at / ".git")
    yield "no repository", copy.is_refused(room / "refused", "release: ")


def archives(room: pathlib.Path, copy: Copy, made: pathlib.Path, program: pathlib.Path) -> Iterator[Case]:
    """Of the archive of a copy, and of others, whether they are as they must be. Behind this the copy isn't any more."""
    yield "nothing in it is of who made it", is_plain(made)
    folder = unpack(made, room / "for sums")
    yield "it has the sums of its files", has_sums(folder)
    yield "its program is the one", (folder / "bin/mt").read_bytes() == program.read_bytes()
    yield "its version is that of the library", versions(made, folder / "lib/libmt.so")
    yield from same_bytes(room, copy, made, program)
    yield from what_is_told(room, copy, made)
    yield from refusals(room, copy, program)
