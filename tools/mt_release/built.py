"""What is built of these sources: `./mt` and `tools/build` make it where that is due, and of the program and the library it is told here whether it is proved.

That is so if a proof run left it and no source is newer, by which those two go as well.
"""
from __future__ import annotations

import pathlib
import subprocess
from collections.abc import Iterable
from dataclasses import dataclass

PROVED, UNPROVED = "proved: a proof run left it, and no source is newer", "built without running the proofs"
CODE = ("crates/*/src", "crates/*/specs", "crates/*/proofs", "crates.txt")
BUILDER = "tools/unproved.py"
PROVED_PROGRAM = "crates/mt_program/out/mt_program"
UNPROVED_PROGRAM = "out/mt_unproved"
PROVED_LIBRARY = "crates/mt/out/libmt.a"
ARCHIVED, SHARED, PAGE = "out/libmt.a", "out/libmt.so", "out/mt.html"


class NotBuilt(Exception):
    """Something can't be built; the text says what."""


@dataclass(frozen=True)
class Built:
    """A file that was built, and what is known of it: `PROVED` or `UNPROVED`."""

    path: pathlib.Path
    how: str


def is_new(top: pathlib.Path, name: str, sources: Iterable[str]) -> bool:
    """Whether a file is there, and no source is newer; a source is a file or all of a folder, the folder's own time too."""
    if not (top / name).exists():
        return False
    found = [path for pattern in sources for path in sorted(top.glob(pattern))]
    newer = subprocess.run(["find", *found, "-newer", top / name, "-print", "-quit"], stdout=subprocess.PIPE, check=True)
    return not newer.stdout


def done(top: pathlib.Path, words: list[str]) -> None:
    """Runs a command of the repository, which has to end well. What it says goes to standard error."""
    ended = subprocess.run(words, cwd=top, stdin=subprocess.DEVNULL, stdout=subprocess.DEVNULL, check=False)
    if ended.returncode:
        raise NotBuilt(f"{' '.join(words)} ended with status {ended.returncode}")


def program(top: pathlib.Path) -> Built:
    """The program that `./mt` runs, which this has built if it is due."""
    done(top, ["./mt", "help"])
    for name, how, sources in ((PROVED_PROGRAM, PROVED, CODE), (UNPROVED_PROGRAM, UNPROVED, (*CODE, BUILDER))):
        if is_new(top, name, sources):
            return Built(top / name, how)
    raise NotBuilt("a source was changed while the program was built")


def made(top: pathlib.Path, target: str, *names: str) -> None:
    """Has a target of tools/build made, of these files, as far as that is due."""
    done(top, ["tools/build", target])
    for name in names:
        if not is_new(top, name, CODE):
            raise NotBuilt(f"tools/build {target} made no {name}, or a source was changed meanwhile")


def libraries(top: pathlib.Path) -> tuple[Built, Built]:
    """The library to link, and the shared one."""
    how = PROVED if is_new(top, PROVED_LIBRARY, CODE) else UNPROVED
    made(top, "library", ARCHIVED, SHARED)
    return Built(top / ARCHIVED, how), Built(top / SHARED, how)


def page(top: pathlib.Path) -> Built:
    """The page. Its module is compiled in a way that no proof covers."""
    made(top, "page", PAGE)
    return Built(top / PAGE, UNPROVED)
