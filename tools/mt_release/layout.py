"""What stands where in the archive: laid out as the repository, so that what the documents say of `./mt`, `tools/` and `examples/` holds there too."""
from __future__ import annotations

import os
import pathlib
import re
import shutil
import subprocess
from dataclasses import dataclass

from mt_release.built import Built
from mt_release.manual import CommandLine, manual
from mt_release.origin import NOT_KNOWN, Commit, checksum, files_of, gate_of, kit

# What is packed as it stands in the repository; of it the folders with all that git knows there.
COPIED = (
    "README.md", "CHANGELOG.md", "LICENSE", "docs", "examples", "page", "checks/rehearsals/one_table", "embed/run.c",
    "tools/controller", "tools/picture", "tools/prompt", "tools/rehearse", "tools/mt_controller", "tools/mt_picture", "tools/mt_prompt", "tools/mt_rehearsal", "tools/mt_runs",
)
RENAMED = {
    "embed/mt.h": "include/mt.h",
    "embed/mt.py": "lib/mt.py",
    "tools/mt_release/install.sh": "install.sh",
    "tools/mt_release/completions.bash": "completions/mt.bash",
}
PROGRAM, ARCHIVED, SHARED, PAGE = "bin/mt", "lib/libmt.a", "lib/libmt.so", "mt.html"
LINKS = {"mt": PROGRAM}
MANUAL, ORIGIN, SUMS = "man/mt.1", "RELEASE", "SHA256SUMS"
PLAIN = re.compile(r"[\w./+@-]+", re.ASCII)
NO_WORDS = 2  # the status of the program without a word
GLIBC = re.compile(rb"\0GLIBC_(\d+)\.(\d+)(?=[.\0])")


class CannotPack(Exception):
    """A file can't be packed; the text says which."""


@dataclass(frozen=True)
class Release:
    """What is packed: the repository at a commit, its version, and what is built of it."""

    top: pathlib.Path
    version: str
    commit: Commit
    program: Built
    archived: Built
    shared: Built
    page: Built

    @property
    def name(self) -> str:
        """The folder in the archive."""
        return f"mt-{self.version}-x86_64-linux"

    @property
    def built(self) -> dict[str, Built]:
        """What is built, by its place."""
        return {PROGRAM: self.program, ARCHIVED: self.archived, SHARED: self.shared, PAGE: self.page}


def command_line(program: pathlib.Path) -> CommandLine:
    """What a program says of its command line. It is called by its own name, which its help repeats."""

    def said(*words: str) -> subprocess.CompletedProcess[str]:
        return subprocess.run(["mt", *words], executable=program, stdin=subprocess.DEVNULL, capture_output=True, text=True, check=False)

    usage, text = said(), said("help")
    if usage.returncode != NO_WORDS or text.returncode:
        raise CannotPack(f"{program} isn't mt: it says {usage.stderr[:200]!r}")
    names = [form.split()[1] for form in usage.stderr.strip().removeprefix("usage: ").split(" | ")]
    return CommandLine(usage.stderr.strip(), text.stdout, {name: said("help", name).stdout for name in names})


def needed(program: pathlib.Path) -> str:
    """What a program needs of the system: the versions of the C library stand in it as text."""
    found = [(int(major), int(minor)) for major, minor in GLIBC.findall(program.read_bytes())]
    if not found:
        raise CannotPack(f"{program} names no version of the C library that it needs")
    return "Linux on x86-64, with glibc {}.{} or newer; the tools Python 3.9 or newer".format(*max(found))


def origin_text(release: Release) -> str:
    """The text that says of which commit the archive is, and what is known of it: a line for each, a word and what it says."""
    commit = release.commit
    gate = gate_of(release.top, commit)
    passed = f"passed on this commit, with the kit {gate['kit']}: {gate['tests']}" if gate else NOT_KNOWN
    ran = bool(gate) and gate["program"] == checksum(release.program.path)
    program = f"{release.program.how}; the one that these tests built and ran" if ran else release.program.how
    lines = {
        "version": release.version,
        "commit": commit.name,
        "date": commit.day,
        "tree": "as the commit has it" if commit.is_clean else "CHANGED since the commit, so that nobody can build it anew",
        "tests": passed,
        "kit": f"{kit()}, as this was packed",
        "needs": needed(release.program.path),
        PROGRAM: program,
        ARCHIVED: release.archived.how,
        SHARED: f"{release.shared.how}; linked by the C compiler, which no proof covers",
        PAGE: f"{release.page.how}; compiled for WebAssembly, which no proof covers",
    }
    return "".join(f"{key:13} {value}\n" for key, value in lines.items())


def put(folder: pathlib.Path, name: str, source: pathlib.Path) -> None:
    """Copies a file to its place, with the one or the other mode."""
    if not PLAIN.fullmatch(name):
        raise CannotPack(f"the name {name!r} has a character that SHA256SUMS can't hold")
    to = folder / name
    to.parent.mkdir(parents=True, exist_ok=True)
    shutil.copyfile(source, to)
    is_run = os.access(source, os.X_OK) and name != SHARED
    to.chmod(0o755 if is_run else 0o644)


def lay_out(release: Release, folder: pathlib.Path) -> None:
    """Puts all that is packed into an empty folder. Raises `CannotPack`, `OSError`."""
    top = release.top
    missing = [path for path in (*COPIED, *RENAMED) if not (top / path).exists()]
    if missing:
        raise CannotPack(f"there is no {missing[0]}")
    for name in files_of(top, COPIED):
        put(folder, name, top / name)
    for source, name in RENAMED.items():
        put(folder, name, top / source)
    for name, built in release.built.items():
        put(folder, name, built.path)
    for name, to in LINKS.items():
        (folder / name).symlink_to(to)
    page = (top / "docs/SCRIPT.md").read_text(encoding="utf-8")
    (folder / MANUAL).parent.mkdir()
    (folder / MANUAL).write_text(manual(page, command_line(release.program.path), release.version, release.commit.day), encoding="ascii")
    (folder / ORIGIN).write_text(origin_text(release), encoding="ascii")
    names = sorted(str(path.relative_to(folder)) for path in folder.rglob("*") if path.is_file() and not path.is_symlink())
    (folder / SUMS).write_text("".join(f"{checksum(folder / name)}  {name}\n" for name in names), encoding="ascii")
