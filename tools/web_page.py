"""The page in which the controller runs, as one file: its look, the module, the drawing, the examples and what docs/SCRIPT.md says of refusals, put into page/index.html."""
from __future__ import annotations

import base64
import json
import pathlib

from mt_picture.drawing import FOLDER, PLACE, modules_text
from mt_picture.gathering import plain_refusals
from mt_runs.program import REPOSITORY
from mt_runs.refusals import read_script_page

PAGE = "mt.html"
EXAMPLES = REPOSITORY / "examples"


def data_text(value: object) -> str:
    """A value as JSON that can stand in a page: no `<` could end the element that it stands in."""
    return json.dumps(value, ensure_ascii=False, separators=(",", ":")).replace("<", "\\u003c")


def choice_of(path: pathlib.Path) -> str:
    """A script of examples/ as an entry of the list."""
    return f'<option value="{path.stem}">{path.stem.replace("_", " ")}</option>'


def page_text(module: bytes) -> str:
    """The page, with this module inside."""
    scripts = sorted(EXAMPLES.glob("*.script"))
    parts = {
        "look": (FOLDER / "look.css").read_text(encoding="utf-8"),
        "choices": "".join(map(choice_of, scripts)),
        "examples": data_text([{"name": it.stem, "text": it.read_text(encoding="utf-8")} for it in scripts]),
        "refusals": data_text(plain_refusals(read_script_page().refusals.values())),
        "module": base64.b64encode(module).decode(),
        "modules": modules_text("index.mjs"),
    }
    return PLACE.sub(lambda found: parts[found[1]], (FOLDER / "index.html").read_text(encoding="utf-8"))
