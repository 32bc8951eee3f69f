"""What is printed behind each line that is typed."""
from __future__ import annotations

import os
import pathlib
from collections.abc import Callable, Iterable, Iterator, Mapping, Sequence

from mt_prompt.typed import Script, running_streams, without_comment
from mt_runs.program import ProgramFailed, is_silent
from mt_runs.refusals import ScriptPage
from mt_runs.shards import first_key
from mt_runs.show import TYPES, stream_word
from mt_runs.topology import Topology
from mt_runs.words import counted, entries

ROW_LINES = ("insert", "update", "append", "delete", "get")  # what may stand behind `at K.T`
# The prompt's own lines, beside those of the language.
OWN_LINES = {
    "where": ("where NAME", "what the name reaches for each tablet type"),
    "lag": ("lag W", "how far each stream of the workflow is behind"),
    "advance": ("advance W", "a turn of each stream that runs, by the positions that show gives; advance W STREAM is one of that stream"),
    "step": ("step W", "the next step, by the number that show gives"),
    "undo": ("undo W", "the last step taken back, by the number that show gives"),
    "back": ("back", "takes the last line away"),
    "lines": ("lines", "prints the lines so far"),
    "save": ("save FILE", "writes the lines so far to a file, as a script"),
    "help": ("help [WORD]", "all lines; or those that begin with a word, or a refusal, as `help F9`"),
    "quit": ("quit", "ends, and so does Ctrl-D"),
}
SHORT_LINES = {verb: OWN_LINES[verb] for verb in ("advance", "step", "undo")}  # which stand for lines of the language


class Prompt:
    """Answers lines: those of the language by the program, its own by questions to the program."""

    def __init__(self, script: Script, page: ScriptPage) -> None:
        self.script, self.page = script, page
        self.has_ended = False
        # by the first word and the number of words
        self._own: dict[tuple[str, int], Callable[[list[str]], Iterator[str]]] = {
            ("where", 2): self._where,
            ("lag", 2): self._lag,
            ("back", 1): self._back,
            ("lines", 1): self._lines,
            ("save", 2): self._save,
            ("quit", 1): self._quit,
            ("exit", 1): self._quit,
        }

    def answer(self, line: str) -> Iterator[str]:
        """What to print behind a line. A run that fails is told, and the line isn't kept."""
        line = line.strip()
        words = without_comment(line)
        own = self._own.get((words[0], len(words))) if words else None
        try:
            if is_silent(line):
                self.script.take_comment(line)
            elif own:
                yield from own(words)
            elif words[0] == "help":
                yield from self._help(" ".join(words[1:]))
            else:
                yield from self._of_language(line)
        except ProgramFailed as error:
            yield f"prompt: {error}"

    def _of_language(self, line: str) -> Iterator[str]:
        """The answer of the program, with the page's words on a refusal."""
        for full in self.script.filled_in(line):
            if full != line:
                yield full
            answer = self.script.take(full)
            yield answer
            yield from self._on_refusal(answer, full.split()[0])

    def _on_refusal(self, answer: str, word: str) -> Iterator[str]:
        for name, text in meanings(self.page, answer, word, OWN_LINES):
            yield f"    {f'{name}:':6} {text}" if name else f"    {text}: `help` lists them"

    # ---- lines of the prompt

    def _help(self, word: str) -> Iterator[str]:
        """All lines; or more of those that begin with a word, or of a refusal."""
        forms = [it for verb, them in self.page.forms.items() if word in ("", verb) for it in them]
        own = [it for verb, it in OWN_LINES.items() if word in ("", verb)]
        refusals = [it for it in self.page.refusals.values() if word and word in (it.name, *it.name.split())]
        width = max([len(it.form) for it in forms] + [len(form) for form, _ in own], default=0)
        yield from (f"  {it.form:{width}}  {it.meaning}{f' (answered: {it.answer})' if word else ''}" for it in forms)
        yield from [] if word else ["", "Of the prompt alone:"]
        yield from (f"  {form:{width}}  {meaning}" for form, meaning in own)
        yield from (f"  {it.name}\n    when:  {it.when}\n    do:    {it.what_to_do}" for it in refusals)
        if not forms and not own and not refusals:
            yield f"there is no line and no refusal {word}"

    def _where(self, words: list[str]) -> Iterator[str]:
        """Where a name leads for each tablet type, and whether a read there is answered, in each shard."""
        name, _, asked = words[1].partition("@")
        topology = self.script.topology()
        for tablet_type in [asked] if asked else TYPES:
            place = topology.led_to(name, tablet_type)
            keys = _first_keys(topology, place)
            answers = self.script.ask([f"get {name}@{tablet_type} {key}" for key in keys.values()])
            yield f"{tablet_type:8} {place or 'nowhere'}   {_by_rule(topology, name, tablet_type)}   {_served(dict(zip(keys, answers)))}"

    def _lag(self, words: list[str]) -> Iterator[str]:
        move = self.script.move(words[1])
        if not move:
            yield from self._on_refusal_of(f"show {words[1]}")
            return
        for stream, unread, rows in self.script.lag(move):
            copy = f", and {counted(rows, 'row', 'rows')} to copy" if rows else ""
            yield f"{stream}: {entries(unread)} to read{copy}"
        if not running_streams(move):
            yield "no stream runs"

    def _on_refusal_of(self, line: str) -> Iterator[str]:
        answer = self.script.ask([line])[0]
        yield answer
        yield from self._on_refusal(answer, line.split()[0])

    def _back(self, words: list[str]) -> Iterator[str]:
        line = self.script.take_back()
        yield "there is no line" if line is None else f"taken away: {line}"

    def _lines(self, words: list[str]) -> Iterator[str]:
        yield from self.script.lines

    def _save(self, words: list[str]) -> Iterator[str]:
        lines = [f"# ./mt run {' '.join(self.script.watchers)}".rstrip(), *self.script.lines]
        try:
            pathlib.Path(words[1]).write_bytes(os.fsencode("".join(f"{it}\n" for it in lines)))
            yield f"{len(self.script.lines)} lines"
        except (OSError, ValueError) as error:
            yield f"prompt: {words[1]}: {error.strerror if isinstance(error, OSError) else error}"

    def _quit(self, words: list[str]) -> Iterator[str]:
        self.has_ended = True
        yield from ()


def meanings(page: ScriptPage, answer: str, word: str, own: Mapping[str, tuple[str, str]]) -> Iterator[tuple[str, str]]:
    """What a refusal means to who typed a line that begins with a word, if its answer is one; `own` are lines beside those of the language.

    Under `form` it is how such lines are written, if that wasn't kept, under `when` and `do` what the page says, and under nothing that there is no such line.
    """
    refusal = page.refusal_of(answer)
    if not refusal:
        return
    forms = [*(it.form for it in page.forms.get(word, ())), *(form for verb, (form, _) in own.items() if verb == word)]
    if refusal.name == "X1 BadLine" and forms:
        yield "form", "  or  ".join(forms)
    elif refusal.name == "X1 BadLine":
        yield "", f"there is no line that begins with {ascii(word)}"
        return
    yield "when", refusal.when
    yield "do", refusal.what_to_do


def _first_keys(topology: Topology, place: str | None) -> dict[str, int]:
    """A key of each shard of the keyspace of a place, or one if it isn't there."""
    keyspace = topology.keyspaces.get((place or "").partition(".")[0])
    return {shard: first_key(shard) for shard in (keyspace.shards if keyspace else ["-"])}


def _by_rule(topology: Topology, name: str, tablet_type: str) -> str:
    """What leads a name where it leads."""
    rule = next((key for key in (f"{name}@{tablet_type}", name) if key in topology.rules), None)
    return f"by the rule {rule}" if rule else "no rule"


def _served(answers: dict[str, str]) -> str:
    """Whether reads are answered; by shards if that differs."""
    told: dict[str, list[str]] = {}
    for shard, answer in answers.items():
        told.setdefault(answer if answer.startswith("refused") else "answered", []).append(shard)
    return next(iter(told)) if len(told) == 1 else "; ".join(f"{what}: {' '.join(shards)}" for what, shards in told.items())


def completions(prompt: Prompt, before: Sequence[str], text: str) -> list[str]:
    """What a text can go on to be, behind the words that stand before it on its line; with a blank behind a word that is whole."""
    if not before:
        return _whole({*prompt.page.forms, *OWN_LINES}, text)
    forms = [*(it.form for it in prompt.page.forms.get(before[0], ())), *(form for verb, (form, _) in OWN_LINES.items() if verb == before[0])]
    words = [form.split() for form in forms]
    expected = {it[len(before)] for it in words if len(it) > len(before)}
    found = {it for placeholder in expected for it in _candidates(prompt, placeholder)}
    # a list may go on behind a word
    return sorted(it for it in found if it.startswith(text)) if expected & {"TABLES", "TYPES"} else _whole(found, text)


def _whole(words: Iterable[str], text: str) -> list[str]:
    return sorted(f"{it} " for it in words if it.startswith(text))


def _candidates(prompt: Prompt, placeholder: str) -> set[str]:
    """What may stand in a form in the place of such a word."""
    topology = prompt.script.topology()
    keyspaces = topology.keyspaces.values()
    tables = {table for it in keyspaces for table in it.tables}
    places = {f"{it.name}.{table}" for it in keyspaces for table in it.tables}
    streams = {stream_word(way, shard) for way in ("forward", "back") for it in keyspaces for shard in it.shards}
    found = {
        **dict.fromkeys(("K", "S", "G"), set(topology.keyspaces)),
        **dict.fromkeys(("T", "TABLES"), tables),
        **dict.fromkeys(("NAME", "KEY", "TARGET"), tables | places | set(topology.rules)),
        **{"K.T": places, "W": prompt.script.workflows(), "TYPES": {"all", *TYPES}, "STREAM": streams, "insert": set(ROW_LINES)},
        "[WORD]": {*prompt.page.forms, *OWN_LINES},
    }
    return found.get(placeholder, set())
