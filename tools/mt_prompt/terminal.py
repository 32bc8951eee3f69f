"""A prompt at a terminal, or over a pipe."""
from __future__ import annotations

import sys
from collections.abc import Callable

from mt_prompt.prompt import Prompt, completions
from mt_runs.program import ProgramFailed

try:
    import readline
except ImportError:  # a Python that was built without it: lines are typed without Tab and history
    readline = None

SEPARATORS = " \t,"


def complete_by_tab(prompt: Prompt) -> None:
    """Has Tab complete words by the forms of lines."""
    found: list[str] = []

    def complete(text: str, state: int) -> str | None:
        """One of the words that a text can go on to be, by its number."""
        if state == 0:
            before = readline.get_line_buffer()[: readline.get_begidx()].replace(",", " , ")
            found[:] = _found(prompt, before, text)
        return found[state] if state < len(found) else None

    readline.set_completer(complete)
    readline.set_completer_delims(SEPARATORS)
    readline.parse_and_bind("tab: complete")


def _found(prompt: Prompt, before: str, text: str) -> list[str]:
    """What a text can go on to be. Behind a comma it is another item of the same word."""
    words = before.split()
    while "," in words:
        at = words.index(",")
        words[at - 1 : at + 2] = []
    try:
        return completions(prompt, words, text)
    except ProgramFailed:
        return []


def typed_line(is_terminal: bool) -> str | None:
    """The next line; an empty one if it was interrupted, None at the end of the input."""
    try:
        return input("mt> " if is_terminal else "")
    except EOFError:
        print(end="\n" if is_terminal else "")
        return None
    except KeyboardInterrupt:
        if not is_terminal:
            raise
        print()
        return ""


def prompted(prompt: Prompt, has_ended: Callable[[], bool] = lambda: False) -> None:
    """Answers the lines of standard input until they end, or `quit` does, or what answers them has ended."""
    sys.stdin.reconfigure(errors="surrogateescape")
    is_terminal = sys.stdin.isatty()
    if readline and is_terminal:
        complete_by_tab(prompt)
    while not prompt.has_ended and not has_ended():
        line = typed_line(is_terminal)
        if line is None:
            return
        print(end="".join(f"{told}\n" for told in prompt.answer(line)), flush=True)
