"""The page of a file in a tab of Chromium, as checks/page uses it: what is done in it, and what is seen there."""
from __future__ import annotations

import contextlib
import dataclasses
import json
import pathlib
import re
from collections.abc import Iterator, Sequence
from typing import Any

from browser import Browser, BrowserFailed, Tab, browsing
from mt_picture.columns import CannotDraw
from mt_picture.facts import document_text
from mt_picture.gathering import gather
from mt_picture.script import Script, read_script
from mt_runs.program import Program
from mt_runs.refusals import read_script_page

SCRIPT_PAGE = read_script_page()
NOT_SHOWN = re.compile("[\x00-\x08\x0b\x0c\x0e-\x1f\ufffe\uffff]")  # what a page shows a mark for
ALT, CTRL, SHIFT = 1, 2, 8
# The script that stands there, whole and by its lines with their answers, and what is drawn.
SEEN = """(() => {
  const rows = [...document.querySelectorAll("#rows li")];
  const told = rows.filter((it) => it.querySelector(".answer")).map((it) => [it.querySelector(".line").textContent, it.querySelector(".answer").textContent]);
  const text = (name) => document.getElementById(name).textContent;
  return { script: document.getElementById("script").value, told, facts: text("facts"), problem: text("problem"), said: text("said"), count: text("count"),
    line: text("line"), picture: text("picture"), columns: document.querySelectorAll("#picture .column").length };
})()"""
# Sets a field as one who types does, or who chooses.
SET = """((name, value, event) => {
  const field = document.getElementById(name);
  field.value = value;
  field.dispatchEvent(new Event(event, { bubbles: true }));
})"""


@dataclasses.dataclass
class Opened:
    """A page in a tab, the program that it is compared with, and a folder for files."""

    tab: Tab
    path: pathlib.Path
    program: pathlib.Path
    folder: pathlib.Path
    known: dict[str, tuple[list[str], Any]] = dataclasses.field(default_factory=dict)

    def open(self, fragment: str = "", address: str = "") -> None:
        """Opens the page anew, and waits until it has begun."""
        self.tab.goto("about:blank")
        self.tab.goto((address or self.path.as_uri()) + fragment)
        self.wait("'ready' in document.documentElement.dataset")

    def wait(self, expression: str = "true") -> None:
        """Waits until something is so, and nothing is drawn any more."""
        self.tab.until(f"{expression} && !document.getElementById('picture').hasAttribute('aria-busy')")
        self.throw_nothing()

    def throw_nothing(self) -> None:
        """Raises what the page threw, if it did."""
        for it in self.tab.browser.told:
            if it.get("method") == "Runtime.exceptionThrown":
                details = it["params"]["exceptionDetails"]
                raise BrowserFailed(f"the page throws {details.get('exception', {}).get('description', details['text'])}")

    def seen(self) -> dict[str, Any]:
        """What stands in the page."""
        self.wait()
        found: dict[str, Any] = self.tab.value(SEEN)
        return found

    def set(self, name: str, value: str, event: str = "input") -> None:
        """Sets a field."""
        self.tab.value(f"{SET}({json.dumps(name)}, {json.dumps(value)}, {json.dumps(event)})")

    def click(self, name: str) -> None:
        """Presses a button."""
        self.tab.value(f"document.getElementById({json.dumps(name)}).click()")

    def take(self, script: str, watched: Sequence[str] = ()) -> None:
        """Puts a script in, with these keyspaces watched, and runs all."""
        self.tab.value(f"document.getElementById('watched').value = {json.dumps(' '.join(watched))}")
        self.set("script", script)
        self.click("all")

    def read(self, script: str, watched: Sequence[str] = ()) -> Script:
        """A script as tools/picture reads it."""
        path = self.folder / "taken.script"
        path.write_bytes(script.encode())
        return read_script(path, watched)

    def differences(self, script: Script, name: str = "") -> list[str]:
        """Where what stands in the page isn't what the program and tools/picture say of a script."""
        seen = self.seen()
        answers, facts = self.wanted(script)
        wanted = [[NOT_SHOWN.sub("\ufffd", line.removesuffix("\r")), answer] for line, answer in zip(script.lines, answers)]
        found = [f"{name}the answers are {first_difference(seen['told'], wanted)}"] * (seen["told"] != wanted)
        got = json.loads(seen["facts"]) if seen["facts"] else None
        found += [f"{name}the facts are {first_difference(got, facts)}"] * (got != facts)
        drawn = len(facts["columns"]) if facts else 0
        return found + [f"{name}{seen['columns']} columns are drawn, of {drawn}"] * (seen["columns"] != drawn)

    def wanted(self, script: Script) -> tuple[list[str], Any]:
        """The answers of the program to a script, and its facts by tools/picture; asked for once."""
        key = repr(script)
        if key not in self.known:
            program = Program(self.program, script.watchers)
            self.known[key] = program.answers(script.lines), facts_of(program, script)
        return self.known[key]

    def other(self, path: pathlib.Path) -> Opened:
        """The page of another file, in the same tab."""
        return dataclasses.replace(self, path=path)


def facts_of(program: Program, script: Script) -> Any:
    """The facts by tools/picture; None if it draws no picture of the script."""
    try:
        return json.loads(document_text(gather(program, script, SCRIPT_PAGE)))
    except CannotDraw:
        return None


def first_difference(got: Any, wanted: Any, path: str = "") -> str:
    """Where two values begin to differ."""
    if isinstance(got, dict) and isinstance(wanted, dict) and sorted(got) == sorted(wanted):
        return next((first_difference(got[key], wanted[key], f"{path}.{key}") for key in got if got[key] != wanted[key]), "the same")
    if isinstance(got, list) and isinstance(wanted, list) and len(got) == len(wanted):
        return next((first_difference(one, other, f"{path}[{at}]") for at, (one, other) in enumerate(zip(got, wanted)) if one != other), "the same")
    return f"{path or 'whole'} {json.dumps(got)[:200]}, wanted {json.dumps(wanted)[:200]}"


@contextlib.contextmanager
def opened(path: pathlib.Path, program: pathlib.Path, folder: pathlib.Path, *flags: str) -> Iterator[Opened]:
    """A browser with the page of a file."""
    with browsing(*flags) as browser:
        yield Opened(tab_of(browser), path, program, folder)


def tab_of(browser: Browser) -> Tab:
    """A tab as wide as a common screen, that tells what is asked of the network."""
    tab = browser.tab()
    tab.call("Network.enable")
    tab.screen(1280, 800, "light")
    return tab
