"""What a log is to a controller: entries at places that are counted from 0, of which each is written once and then stays."""
from __future__ import annotations

from collections.abc import Iterator, Sequence
from typing import Protocol

from mt_controller.entries import WrongLog

TextAt = tuple[int, bytes]


class LogFailed(Exception):
    """The log can't be used any more, as its disk is full; the text says why. What was being appended stands in it or doesn't."""


class LogUnreachable(Exception):
    """The log gave no answer; the text says why. What was being appended stands in it, doesn't, or may still come to stand there. Worth another try."""


class Log(Protocol):
    """A log that several controllers append to. Each of its calls raises `WrongLog`, `LogFailed` or `LogUnreachable`."""

    name: str

    def read(self, place: int) -> Sequence[bytes]:
        """Some of the entries from a place on, in order: none if there is none there. They are of now, not of an earlier time."""

    def append(self, place: int, text: bytes, before: bytes) -> bool:
        """Whether an entry now stands at a place, because this call put it there; not if one stands there already.

        Raises `WrongLog` if none does, and what stands at the place before isn't `before` (any more); place 0 has none before it.
        """

    def close(self) -> None:
        """Lets go of it."""


def entries_from(log: Log, place: int) -> Iterator[bytes]:
    """The entries of a log from a place on, up to the last. Raises what its calls raise."""
    while texts := log.read(place):
        yield from texts
        place += len(texts)


def in_order(found: Sequence[TextAt], place: int) -> list[bytes]:
    """Entries with their places, which must follow one another from a place on. Raises `WrongLog` at a gap."""
    for expected, (at, _) in enumerate(found, place):
        if at != expected:
            raise WrongLog(f"the log has a gap: behind place {expected - 1} comes place {at}")
    return [text for _, text in found]


def changed_at(place: int) -> WrongLog:
    """What says that a log isn't any more what was read of it."""
    return WrongLog(f"the log was changed, or is an earlier state of itself: the entry that stood at place {place} doesn't stand there any more")
