"""Tables of this repository's pages, which the tools quote rather than have texts of their own."""
from __future__ import annotations

import re
from collections.abc import Iterator, Sequence

BAR = re.compile(r"(?<!\\)\|")


def table_rows(text: str, head: Sequence[str]) -> Iterator[list[str]]:
    """The rows of the first table of a page with just these words over its columns, each as its cells."""
    inside = False
    for line in text.splitlines():
        cells = [cell.strip() for cell in BAR.split(line)[1:-1]]
        if inside and not cells:
            return
        if inside and len(cells) == len(head) and set(cells[0]) != {"-"}:
            yield cells
        inside = inside or cells == list(head)
