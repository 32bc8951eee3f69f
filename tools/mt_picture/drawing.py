"""The drawing in page/: run by node for an SVG file, and put into a page that needs no network."""
from __future__ import annotations

import html
import pathlib
import re
import shutil
import subprocess
import tempfile
from collections.abc import Sequence

from mt_runs.program import REPOSITORY

FOLDER = REPOSITORY / "page"
NODES = ("nodejs", "node")
IMPORT = re.compile(r'^import \{[^}]*\} from "\./([\w.]+)";\n', re.M)
EXPORT = re.compile(r"^export (?=function |const )", re.M)
PLACE = re.compile(r"\{\{(\w+)\}\}")


class DrawingFailed(Exception):
    """There is no node, or it couldn't draw; the text says which."""


def modules_text(entry: str, done: set[str] | None = None) -> str:
    """A module of page/ and those that it imports as one text, each behind what it imports, without its imports and exports.

    So the names at the top of all modules have to differ, and each import has the form of those there: names alone, from a file of the folder.
    """
    done = set() if done is None else done
    done.add(entry)
    text = (FOLDER / entry).read_text(encoding="utf-8")
    before = [modules_text(name, done) for name in IMPORT.findall(text) if name not in done]
    return "".join([*before, EXPORT.sub("", IMPORT.sub("", text))])


def page_text(title: str, watchers: Sequence[str], facts: str) -> str:
    """A page that draws these facts, given as JSON, with the drawing inside."""
    parts = {
        "title": html.escape(title),
        "watchers": html.escape(" ".join(watchers)),
        "facts": facts.replace("<", "\\u003c"),  # which could end the script that they stand in
        "modules": modules_text("page.mjs"),
    }
    return PLACE.sub(lambda found: parts[found[1]], (FOLDER / "page.html").read_text(encoding="utf-8"))


def find_node() -> str:
    """The path of node; `DrawingFailed` if there is none."""
    for name in NODES:
        if path := shutil.which(name):
            return path
    raise DrawingFailed("there is no node to draw with (Debian's package nodejs); a page draws by itself, with -o PAGE.html")


def draw(pairs: list[tuple[pathlib.Path, pathlib.Path]]) -> None:
    """Draws files of facts to files of SVG. Raises `DrawingFailed`, with what node said."""
    words = [find_node(), str(FOLDER / "draw.mjs"), *(str(path) for pair in pairs for path in pair)]
    ended = subprocess.run(words, stdin=subprocess.DEVNULL, capture_output=True, text=True, errors="replace", check=False)
    if ended.returncode:
        raise DrawingFailed(f"{words[0]} couldn't draw: {ended.stderr.strip()[-500:]}")


def svg_text(facts: str) -> str:
    """The picture of facts, given as JSON. Raises `DrawingFailed`, as `draw` does."""
    with tempfile.TemporaryDirectory() as folder:
        path, svg = pathlib.Path(folder) / "facts.json", pathlib.Path(folder) / "picture.svg"
        path.write_text(facts, encoding="utf-8")
        draw([(path, svg)])
        return svg.read_text(encoding="utf-8")
