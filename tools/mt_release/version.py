"""The version of this repository."""
from __future__ import annotations

import pathlib
import re

SOURCE = "crates/mt/src/version.rt"
CHANGES = "CHANGELOG.md"
IN_SOURCE = re.compile(r"^pub const VERSION: \[i32; 3\] = \[(\d+), (\d+), (\d+)\];$", re.M)
HEADING = re.compile(r"^## (.*)$", re.M)
NUMBERS = re.compile(r"\d+\.\d+\.\d+")


class NoVersion(Exception):
    """No version is said where it should be; the text says where."""


def newest_heading(top: pathlib.Path) -> str:
    """The version of the newest heading of CHANGELOG.md. Raises `NoVersion` if that is none."""
    heading = HEADING.search((top / CHANGES).read_text(encoding="utf-8"))
    if not heading or not NUMBERS.fullmatch(heading[1]):
        raise NoVersion(f"{CHANGES}: the newest heading is no version")
    return heading[1]


def version_of(top: pathlib.Path) -> str:
    """The version that the library's source says, which the newest heading of CHANGELOG.md has to say too. Raises `NoVersion` otherwise."""
    heading = newest_heading(top)
    found = IN_SOURCE.search((top / SOURCE).read_text(encoding="utf-8"))
    said = ".".join(found.groups()) if found else "no version"
    if said != heading:
        raise NoVersion(f"{SOURCE} says {said}, and the newest heading of {CHANGES} {heading}")
    return heading
