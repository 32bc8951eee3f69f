"""What docs/SCRIPT.md says of refusals and of the forms of lines, read from its own tables."""
from __future__ import annotations

import os
import re
from collections.abc import Mapping
from dataclasses import dataclass

from mt_runs.pages import table_rows
from mt_runs.program import REPOSITORY

SCRIPT_PAGE = REPOSITORY / "docs/SCRIPT.md"
REFUSALS_HEAD = ["refusal", "when", "what to do"]
LINES_HEAD = ["line", "what it does", "answer"]
REFUSED = re.compile(r"(?:refused|abandoned|stopped) ([A-Z]\d+ \w+)")


@dataclass(frozen=True)
class Refusal:
    """A refusal with its letter, number and name; when a line is refused so, and what to do about it, as the page says it."""

    name: str
    when: str
    what_to_do: str


@dataclass(frozen=True)
class LineForm:
    """The form of a line, what it does, and what it is answered."""

    form: str
    meaning: str
    answer: str


@dataclass(frozen=True)
class ScriptPage:
    """The refusals by their names, as `F9 RuleConflict`, and the forms of lines by their first word, in the order of the page."""

    refusals: Mapping[str, Refusal]
    forms: Mapping[str, tuple[LineForm, ...]]

    def refusal_of(self, answer: str) -> Refusal | None:
        """The refusal that an answer names; None if it names none, or one that isn't in the page's table."""
        found = REFUSED.match(answer)
        return self.refusals.get(found[1]) if found else None


def read_script_page(path: str | os.PathLike[str] = SCRIPT_PAGE) -> ScriptPage:
    """What a page in the form of docs/SCRIPT.md says. Raises `OSError` if it can't be read, `ValueError` if it isn't UTF-8 or lacks one of the tables."""
    with open(path, encoding="utf-8") as file:
        text = file.read()
    refusals = [Refusal(name.strip("`"), when, what) for name, when, what in table_rows(text, REFUSALS_HEAD)]
    forms: dict[str, tuple[LineForm, ...]] = {}
    for cell, meaning, answer in table_rows(text, LINES_HEAD):
        form = cell.split("`")[1]
        word = form.split()[0]
        forms[word] = (*forms.get(word, ()), LineForm(form, meaning, answer))
    if not refusals or not forms:
        raise ValueError(f"{os.fspath(path)}: there is no table of {'lines' if refusals else 'refusals'}")
    return ScriptPage({it.name: it for it in refusals}, forms)
