"""Values of JSON documents that know where they stand, so that each complaint names its file and place."""
from __future__ import annotations

import json
import pathlib
from collections.abc import Iterator
from dataclasses import dataclass
from typing import Any

KINDS = {dict: "an object", list: "a list", str: "a text", bool: "true or false", int: "a number", float: "a number", type(None): "null"}


class CannotRehearse(Exception):
    """A document is missing, of another form, or says what can't be represented; the text names the file and the place."""


def read_text(path: pathlib.Path) -> str:
    """The text of a file; `CannotRehearse` if it can't be read or isn't UTF-8."""
    try:
        return path.read_text(encoding="utf-8-sig")
    except OSError as error:
        raise CannotRehearse(f"{path.name}: {error.strerror or error}") from error
    except ValueError as error:
        raise CannotRehearse(f"{path.name}: isn't UTF-8") from error


@dataclass(frozen=True)
class Value:
    """A value of a document, with the name of its file and its place there, as `rules[3].to_tables`."""

    file: str
    place: str
    data: Any

    def fail(self, complaint: str) -> CannotRehearse:
        """What to raise about this value."""
        return CannotRehearse(f"{self.file}: {self.place + ': ' if self.place else ''}{complaint}")

    def member(self, *spellings: str) -> Value:
        """A member of this object under the first of its spellings that is there; its data is None if none is."""
        members = self._expect(dict)
        name = next((it for it in spellings if it in members), spellings[0])
        return Value(self.file, f"{self.place}.{name}" if self.place else name, members.get(name))

    def members(self) -> dict[str, Value]:
        """The members of an object, none of one that is missing or null."""
        members = {} if self.data is None else self._expect(dict)
        return {name: Value(self.file, f"{self.place}.{name}" if self.place else name, it) for name, it in members.items()}

    def items(self) -> Iterator[Value]:
        """The items of a list, none of one that is missing or null."""
        for at, item in enumerate([] if self.data is None else self._expect(list)):
            yield Value(self.file, f"{self.place}[{at}]", item)

    def text(self) -> str:
        """This text."""
        return self._expect(str)

    def flag(self, missing: bool = False) -> bool:
        """This true or false, or what one that is missing or null counts as."""
        return missing if self.data is None else self._expect(bool)

    def _expect(self, kind: type) -> Any:
        if not isinstance(self.data, kind):
            found = "missing" if self.data is None else KINDS.get(type(self.data), "something else")
            raise self.fail(f"should be {KINDS[kind]}, and is {found}")
        return self.data


def read_document(path: pathlib.Path) -> Value:
    """A JSON document, which is an object or a list; `CannotRehearse` if it is anything else."""
    text = read_text(path)
    if not text.strip():
        raise CannotRehearse(f"{path.name}: is empty")
    try:
        data = json.loads(text)
    except json.JSONDecodeError as error:
        raise CannotRehearse(f"{path.name}: line {error.lineno}, column {error.colno}: no JSON: {error.msg}") from error
    except (ValueError, RecursionError) as error:
        raise CannotRehearse(f"{path.name}: no JSON that can be read: {error}") from error
    value = Value(path.name, "", data)
    if not isinstance(data, (dict, list)):
        raise value.fail("should be an object or a list")
    return value
