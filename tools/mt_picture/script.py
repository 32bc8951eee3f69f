"""A script as the picture reads it: the lines that are answered, and the comments between them."""
from __future__ import annotations

import pathlib
import re
from collections.abc import Sequence
from dataclasses import dataclass

from mt_runs.program import MOST_WATCHERS, is_silent

RUN_WORDS = re.compile(r"\bmt run\b([^<\n]*)")
BLANKS = re.compile(r"[ \t]+")
NAME = re.compile(r"[A-Za-z0-9_][A-Za-z0-9_-]{0,63}")  # of a keyspace


@dataclass(frozen=True)
class Script:
    """The lines that are answered, as they are sent; the comment in front of some, by the place of its line; the title, empty if no comment gives one; and the
    words behind `mt run`."""

    lines: tuple[str, ...]
    notes: dict[int, str]
    title: str
    watchers: tuple[str, ...]

    def shown(self, place: int) -> str:
        """A line as it is shown: without the carriage return of its end, and with U+FFFD for bytes that aren't UTF-8."""
        return shown_text(self.lines[place].removesuffix("\r"))


def shown_text(text: str) -> str:
    """A text with U+FFFD in the place of bytes that aren't UTF-8."""
    return text.encode("utf-8", "surrogateescape").decode("utf-8", "replace")


def words_of(line: str) -> list[str]:
    """The words of a line: blanks are spaces and tabs alone."""
    return [word for word in BLANKS.split(line.removesuffix("\r")) if word]


def read_script(path: pathlib.Path, keyspaces: Sequence[str] = ()) -> Script:
    """The script of a file, with these words behind `mt run`; `OSError` if it can't be read.

    Without words they are those of a comment `mt run ..` in the script, or else the keyspaces that it makes, as many as a run takes.
    """
    text = path.read_bytes().decode("utf-8", "surrogateescape")
    lines, notes = _lines_and_notes(text)
    title = shown_text(notes[0].pop(0)).rstrip(".") if notes.get(0) else ""
    told = {place: shown_text(" ".join(paragraphs)) for place, paragraphs in notes.items() if paragraphs}
    return Script(tuple(lines), told, title, tuple(keyspaces) or _watchers(text, lines))


def _lines_and_notes(text: str) -> tuple[list[str], dict[int, list[str]]]:
    """The lines that are answered, and the paragraphs of the comments right in front of some."""
    raw = text.split("\n")
    if raw[-1].endswith("\r"):
        raw[-1] += "\r"  # no line feed follows, so this one belongs to the line: the program is to drop another
    lines: list[str] = []
    notes: dict[int, list[str]] = {}
    block: list[str] = []
    for line in raw:
        if is_silent(line):
            block = [*block, line.strip("# \t\r")] if line.startswith("#") else [*block, ""]
            continue
        notes[len(lines)] = _paragraphs(block)
        lines.append(line)
        block = []
    return lines, notes


def _paragraphs(block: Sequence[str]) -> list[str]:
    """The paragraphs of a comment, without the line that says how the script is run."""
    text = "\n".join("" if RUN_WORDS.search(line) else line for line in block)
    return [" ".join(part.split("\n")) for part in re.split(r"\n{2,}", text.strip("\n")) if part]


def _watchers(text: str, lines: Sequence[str]) -> tuple[str, ...]:
    told = next((found for line in text.split("\n") if line.startswith("#") and (found := RUN_WORDS.search(line))), None)
    if told:
        return tuple(told[1].split())
    words = [words_of(line) for line in lines]
    return tuple(dict.fromkeys(it[1] for it in words if it[0] == "keyspace" and len(it) in (2, 3) and NAME.fullmatch(it[1])))[:MOST_WATCHERS]
