"""The programs of docs/EMBED.md: each is compiled or run as the page says, that in C as C++ too, and prints what the block behind it has."""
from __future__ import annotations

import os
import pathlib
import re
import subprocess
import sys
from collections.abc import Callable, Iterator

TOP = pathlib.Path(__file__).resolve().parent.parent
PAGE = TOP / "docs/EMBED.md"
# A block of C or Python, and the block of what it prints behind it.
PROGRAM = re.compile(r"^```(c|python)\n(.*?)^```\n.*?^```text\n(.*?)^```$", re.M | re.S)


def compiled(name: str, *compiler: str) -> Callable[[str, pathlib.Path, pathlib.Path], str]:
    """How it is found what a program prints that such a compiler makes."""

    def printed(text: str, of: pathlib.Path, room: pathlib.Path) -> str:
        source, program = room / name, room / f"{name}.out"
        source.write_text(text)
        subprocess.run([*compiler, "-Wall", "-Wextra", "-Werror", f"-I{TOP / 'embed'}", "-o", program, source, of / "libmt.a"], check=True)
        return subprocess.run([program], stdout=subprocess.PIPE, text=True).stdout

    return printed


def in_python(text: str, of: pathlib.Path, room: pathlib.Path) -> str:
    """What a program in Python prints."""
    variables = dict(os.environ, PYTHONPATH=str(TOP / "embed"), PYTHONDONTWRITEBYTECODE="1", MT_LIBRARY=str(of / "libmt.so"))
    return subprocess.run([sys.executable, "-c", text], env=variables, cwd=room, stdout=subprocess.PIPE, text=True).stdout


PRINTS = {"c": [compiled("page.c", "gcc"), compiled("page.cc", "g++")], "python": [in_python]}


def tries(of: pathlib.Path, room: pathlib.Path) -> Iterator[tuple[str, Callable[[], bool]]]:
    """Each program of the page, and whether it prints what the page says, over the library in a folder."""
    found = PROGRAM.findall(PAGE.read_text())
    yield "docs/EMBED.md has a program in C and one in Python", lambda: sorted(kind for kind, _, _ in found) == sorted(PRINTS)
    for kind, text, want in found:
        yield f"the program in {kind} of docs/EMBED.md", lambda kind=kind, text=text, want=want: {it(text, of, room) for it in PRINTS[kind]} == {want}
