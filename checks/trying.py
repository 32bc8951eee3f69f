"""Has the prover try wrong bodies of a crate, many by one check.

A check costs its front end, whatever it looks at, and then says of each function by itself whether it is proved. So wrong bodies that turn different
functions are put into one copy of the crate, and one `rt check` tries all of them: a contract hides a body from those who call it, so what one
of them turns changes nothing for the others, but that no function is proved which calls one that isn't. Those that wait for that are tried in the
next round, without the ones that are settled. Whoever seems to be proved in a round, turns more than functions, or doesn't compile, is tried alone.
"""
from __future__ import annotations

import pathlib
import re
import shutil
import subprocess
import tempfile
from collections.abc import Iterable, Iterator
from dataclasses import dataclass, field

PARTS = ("src", "specs", "proofs")
HEADER = re.compile(r"^( *)(?:pub(?:\([^)]*\))? )?(?:const )?(?:unsafe )?fn (\w+)")
IMPL = re.compile(r"^impl(?:<.*?>)? (?:([\w:]+)(?:<.*>)? for )?&?([\w:]+)")
FUNCTION = re.compile(r"^fn (\S+): (.*)$", re.M)
WAITS = re.compile(r"no proof: it calls (.*), which (?:is|are) not proved")
PLACE = re.compile(r"^(?:note: |error: |warning: )?(?:\./)?((?:src|proofs)/[^:]+):\d+:\d+:", re.M)
# What says that a proof names what the wrong body took away, which tells little of a contract.
BY_NAME = re.compile(r"has no field|is not in scope|has no `|was not admitted")
REFUSED, PROVED, UNSETTLED = "refused", "proved", "unsettled"
# As `rt` says it.
REFUSED_SO = "refused, as it must be"


@dataclass(frozen=True)
class Turned:
    """A function that a wrong body turns: its file, the type of its `impl` (or none), its name."""

    module: str
    owner: str
    name: str

    def is_at(self, crate: str, path: str) -> bool:
        """Whether a path that a check prints is this function's."""
        parts = path.split("::")
        module = [crate, *filter(None, self.module.split("::"))]
        owner = parts[len(module):-1]
        if parts[: len(module)] != module or parts[-1] != self.name:
            return False
        return len(owner) == 1 and owner[0].startswith(self.owner) if self.owner else not owner


@dataclass
class Body:
    """A wrong body: its file, the lines that it turns, and the functions, none if it turns something else too."""

    edit: pathlib.Path
    pairs: list[tuple[str, str, str]]
    turned: set[Turned] = field(default_factory=set)

    @property
    def label(self) -> str:
        return f"{self.edit.parent.parent.name}/{self.edit.name}"


def pairs_of(edit: pathlib.Path) -> list[tuple[str, str, str]]:
    """The file, the text that goes and the text that comes, of each pair of a wrong body."""
    pairs, path, old = [], "", ""
    for line in edit.read_text().splitlines():
        key, _, text = line.partition(": ")
        if key == "file":
            path = text
        elif key == "old":
            old = text
        elif line.startswith("new:"):
            pairs.append((path, old, text))
    return pairs


def module_of(path: str) -> str:
    """The module of a file below `src`."""
    parts = pathlib.PurePosixPath(path).with_suffix("").parts[1:]
    return "::".join(parts if parts[-1] not in ("lib", "main", "mod") else parts[:-1])


def owner_at(lines: list[str], row: int) -> str:
    """The type, with the trait behind it, of the `impl` around a row, or none."""
    for line in reversed(lines[: row + 1]):
        if line.startswith("}"):
            return ""
        if named := IMPL.match(line):
            trait, kind = (it and it.split("::")[-1] for it in named.groups())
            return f"{kind}{trait or ''}"
    return ""


def function_at(path: str, lines: list[str], row: int) -> Turned | None:
    """The function around a row, if one is."""
    for start in range(row, -1, -1):
        if named := HEADER.match(lines[start]):
            end = next((at for at in range(start, len(lines)) if lines[at] in (named[1] + "}", named[1] + "{}")), start)
            own = owner_at(lines, start) if named[1] else ""
            return Turned(module_of(path), own, named[2]) if row <= end else None
    return None


def turned_by(crate: pathlib.Path, pairs: list[tuple[str, str, str]]) -> set[Turned]:
    """The functions that a wrong body turns, none if it turns something else too."""
    found = set()
    for path, old, _ in pairs:
        text = (crate / path).read_text()
        if not path.startswith("src/") or text.count(old) != 1:
            return set()
        row = text[: text.index(old)].count("\n")
        function = function_at(path, text.splitlines(), row)
        if not function:
            return set()
        found.add(function)
    return found


def body_of(edit: pathlib.Path) -> Body:
    pairs = pairs_of(edit)
    return Body(edit, pairs, turned_by(edit.parent.parent, pairs))


# ---- a copy of the crate


def below(top: pathlib.Path, crate: str) -> dict[str, str]:
    """A crate and those that it stands on, each with its line of `crates.txt`."""
    listed = [line.partition("#")[0] for line in (top / "crates.txt").read_text().splitlines()]
    lines = {line.split()[0].rstrip(":"): line for line in listed if line.strip()}
    found = [crate]
    for name in found:
        found += [it for it in lines[name].partition(":")[2].split() if it in lines and it not in found]
    return {name: lines[name] for name in found}


def copied(top: pathlib.Path, crate: str, room: pathlib.Path) -> pathlib.Path:
    """A copy of what a check of the crate reads: lists, sources, and what was proved of the crates below."""
    lines = below(top, crate)
    shutil.copy(top / "HANDLES", room)
    (room / "crates.txt").write_text("\n".join(lines.values()) + "\n")
    subprocess.run(["git", "init", "-q", room], check=True)
    for name in lines:
        folder, to = top / "crates" / name, room / "crates" / name
        to.mkdir(parents=True)
        for part in filter(lambda it: (folder / it).is_dir(), (*PARTS, "out/rlib")):
            shutil.copytree(folder / part, to / part)
    kept = top / "crates" / crate / "out/incremental"
    if kept.is_dir():
        shutil.copytree(kept, room / "crates" / crate / "out/incremental")
    return room / "crates" / crate


class Copy:
    """A copy of a crate in which wrong bodies are tried, one batch after the other, over one another's work."""

    def __init__(self, crate: pathlib.Path, own: pathlib.Path) -> None:
        self.crate, self.own = crate, own

    def put(self, bodies: Iterable[Body]) -> list[Body]:
        """Puts the crate's sources there, with those of these wrong bodies that fit beside one another; which do."""
        for part in filter(lambda it: (self.own / it).is_dir(), PARTS):
            shutil.rmtree(self.crate / part)
            shutil.copytree(self.own / part, self.crate / part)
        return [body for body in bodies if self.turn(body)]

    def turn(self, body: Body) -> bool:
        """Turns what a wrong body turns, if all its texts stand there once."""
        texts = {path: (self.crate / path).read_text() for path, _, _ in body.pairs}
        for path, old, new in body.pairs:
            if texts[path].count(old) != 1:
                return False
            texts[path] = texts[path].replace(old, new)
        for path, text in texts.items():
            (self.crate / path).write_text(text)
        return True

    def checked(self) -> str:
        """What a check of it says."""
        how = {"stdout": subprocess.PIPE, "stderr": subprocess.STDOUT, "stdin": subprocess.DEVNULL, "text": True, "errors": "replace"}
        return subprocess.run(["rt", "check", "--jobs", "1"], cwd=self.crate, **how).stdout


# ---- what a check says


def state_of(said: dict[str, str], path: str) -> str:
    """Whether a function is refused for itself, proved, or neither is known, as it waits for another or the prover met a limit."""
    state = said[path]
    if state == "proved":
        return PROVED
    waits = WAITS.match(state)
    if not waits:
        return UNSETTLED if "could not tell" in state or "not checked" in state else REFUSED
    module, _, name = path.rpartition("::")
    own = [it for it in re.findall(r"`([^`]*)`", waits[1]) if f"::fn::{name}::" in it and it in said]
    return REFUSED if any(state_of(said, it) == REFUSED for it in own) else UNSETTLED


def is_by_name(told: str, path: str) -> bool:
    """Whether all that is told of a function's proof is that it names what is gone."""
    folder = "proofs/" + "/".join(path.split("::")[1:]) + "/"
    errors = [line for line in told.splitlines() if folder in line and ": error" in line]
    return bool(errors) and all(map(BY_NAME.search, errors))


def settled(told: str, crate: str, bodies: list[Body]) -> Iterator[tuple[Body, str, str]]:
    """Of each wrong body what a check says of the functions that it turns, and the line that says so."""
    said = dict(FUNCTION.findall(told))
    for body in bodies:
        paths = [path for it in body.turned for path in said if it.is_at(crate, path)]
        states = {path: state_of(said, path) for path in paths}
        refused = [path for path, state in states.items() if state == REFUSED and not is_by_name(told, path)]
        if refused:
            yield body, REFUSED, f"{refused[0]}: {said[refused[0]]}"
        elif len(paths) < len(body.turned) or all(it != UNSETTLED for it in states.values()):
            yield body, PROVED, ""
        else:
            yield body, UNSETTLED, ""


def one_a_function(bodies: list[Body]) -> list[Body]:
    """Those that turn no function which an earlier one turns."""
    taken: set[Turned] = set()
    chosen = []
    for body in bodies:
        if body.turned and not body.turned & taken:
            taken |= body.turned
            chosen.append(body)
    return chosen


def rounds(copy: Copy, crate: str, bodies: list[Body]) -> Iterator[tuple[Body, str]]:
    """Tries wrong bodies together; gives those that are refused, with what says so. The others have to be tried alone."""
    left = [body for body in bodies if body.turned]
    while left:
        batch = copy.put(one_a_function(left))
        told = copy.checked()
        if not FUNCTION.search(told):
            gone = unread(copy, told, batch)
            left = [body for body in left if body not in gone]
            continue
        done = [(body, state, why) for body, state, why in settled(told, crate, batch) if state != UNSETTLED]
        yield from ((body, why) for body, state, why in done if state == REFUSED)
        # what seems proved is tried alone, and so is whatever a round in which nothing was settled leaves
        gone = [body for body, _, _ in done] or batch
        left = [body for body in left if body not in gone]


def unread(copy: Copy, told: str, batch: list[Body]) -> list[Body]:
    """Those of a batch that a check couldn't read: those whose functions it names, or all if it names none."""
    named = set()
    for path, row in re.findall(r"(src/[\w/]+\.rt):(\d+):\d+: error", told):
        named.add(function_at(path, (copy.crate / path).read_text().splitlines(), int(row) - 1))
    return [body for body in batch if body.turned & named] or batch


def alone(copy: Copy, body: Body) -> str:
    """What the prover says of one wrong body, by a check of the whole crate."""
    if not copy.put([body]):
        return "BAD EDIT: a text that it turns doesn't stand there once"
    told = copy.checked()
    lines = [line for line in told.splitlines() if PLACE.match(line)]
    errors = [line for line in lines if ": error" in line or line.startswith("note: ")] or lines
    first = errors[0][:200] if errors else ""
    if re.search(r"^logic=proved", told, re.M):
        return "NOT REFUSED: the crate is still proved with it"
    if not re.search(r"^logic=not-proved", told, re.M):
        return f"BAD EDIT: it did not reach the prover, or met a limit: {first or told.strip()[-200:]}"
    if errors and all(line.lstrip("./").startswith("proofs/") and BY_NAME.search(line) for line in errors):
        return f"{REFUSED_SO} (only because a proof file names what it took away): {first}"
    return f"{REFUSED_SO}: {first}"


def tried(top: pathlib.Path, crate: str, edits: list[pathlib.Path]) -> Iterator[tuple[pathlib.Path, str]]:
    """What the prover says of each of these wrong bodies of a crate whose libraries and own proof are there."""
    bodies = [body_of(edit) for edit in edits]
    with tempfile.TemporaryDirectory(prefix="mt-bodies-") as room:
        copy = Copy(copied(top, crate, pathlib.Path(room)), top / "crates" / crate)
        refused = set()
        for body, why in rounds(copy, crate, bodies):
            refused.add(body.edit)
            yield body.edit, f"{REFUSED_SO}: {why[:200]}"
        yield from ((body.edit, alone(copy, body)) for body in bodies if body.edit not in refused)
