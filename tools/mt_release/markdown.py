"""A page of this repository in Markdown, as the list of its blocks: headings, paragraphs, blocks of code, tables and lists."""
from __future__ import annotations

import re
from collections.abc import Iterator
from dataclasses import dataclass
from typing import Union

from mt_runs.pages import BAR

HEADING = re.compile(r"(#+) (.*)")
ITEM = re.compile(r"(-|\d+\.) +(.*)")


@dataclass(frozen=True)
class Heading:
    """A heading: 1 is the page's own."""

    level: int
    text: str


@dataclass(frozen=True)
class Paragraph:
    """A paragraph, in one line."""

    text: str


@dataclass(frozen=True)
class Item:
    """An item of a list, with its mark: `-`, or a number and a dot."""

    mark: str
    text: str


@dataclass(frozen=True)
class Code:
    """A block of code, fenced or indented."""

    lines: tuple[str, ...]


@dataclass(frozen=True)
class Table:
    """A table: the words over its columns, and its rows."""

    head: tuple[str, ...]
    rows: tuple[tuple[str, ...], ...]


Block = Union[Heading, Paragraph, Item, Code, Table]


def blocks_of(text: str) -> Iterator[Block]:
    """The blocks of a page, in their order."""
    lines = text.splitlines()
    at = 0
    while at < len(lines):
        end = _end_of_block(lines, at)
        if lines[at].strip():
            yield _block(lines[at:end])
        at = end


def _is_text(line: str) -> bool:
    """Whether a line can go on with a paragraph or an item."""
    return bool(line.strip()) and not line.startswith(("|", "```", "#")) and not ITEM.match(line)


def _end_of_block(lines: list[str], at: int) -> int:
    """Behind the last line of the block that begins with a line."""
    end = at + 1
    if lines[at].startswith("```"):
        while end < len(lines) and lines[end] != "```":
            end += 1
        return end + 1
    if not lines[at].strip() or HEADING.match(lines[at]):
        return end
    start = next((it for it in ("|", "    ") if lines[at].startswith(it)), None)
    while end < len(lines) and (lines[end].startswith(start) if start else _is_text(lines[end])):
        end += 1
    return end


def _block(lines: list[str]) -> Block:
    """What the lines of a block are."""
    first = lines[0]
    if first.startswith("```"):
        return Code(tuple(lines[1:-1]))
    if first.startswith("    "):
        return Code(tuple(line[4:] for line in lines))
    if first.startswith("|"):
        head, _, *rows = (tuple(cell.strip().replace("\\|", "|") for cell in BAR.split(line)[1:-1]) for line in lines)
        return Table(head, tuple(rows))
    if heading := HEADING.match(first):
        return Heading(len(heading[1]), heading[2])
    text = " ".join(line.strip() for line in lines)
    item = ITEM.match(text)
    return Item(item[1], item[2]) if item else Paragraph(text)
