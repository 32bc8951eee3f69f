"""Words of the tools' own texts."""
from __future__ import annotations


def counted(number: int, one: str, several: str) -> str:
    """How many of something there are: `1 entry`, `2 entries`."""
    return f"{number:,} {one if number == 1 else several}"


def entries(number: int) -> str:
    """So many entries of a log."""
    return counted(number, "entry", "entries")
