"""The C programs of checks/embed (checks/callers): how they are compiled, and run by themselves and under tools that look at each access."""
from __future__ import annotations

import dataclasses
import pathlib
import re
import shutil
import subprocess
import tempfile
from collections.abc import Sequence

TOP = pathlib.Path(__file__).resolve().parent.parent
CALLERS = TOP / "checks/callers"
HEADERS = TOP / "embed"
COMPILE = ("gcc", "-std=gnu11", "-g", "-O1", "-Wall", "-Wextra", "-Werror", f"-I{HEADERS}")
HEAP = tuple(f"-Wl,--wrap={it}" for it in ("malloc", "realloc", "free"))
SPOILT = tuple(f"-Wl,--wrap={it}" for it in ("mt_command", "mt_run", "mt_close"))
ADDRESSES = "-fsanitize=address,undefined"
MEMCHECK = ("valgrind", "--quiet", "--leak-check=full", "--error-exitcode=9")
HELGRIND = ("valgrind", "--quiet", "--tool=helgrind", "--error-exitcode=9")
COUNTED = re.compile(r"^(\d+) passed, (\d+) failed\n\Z", re.M)

# How each caller is compiled, beside its own file and the library.
NEEDS = {"play": (), "failing": ("memory.c", *HEAP), "many": ("memory.c", *HEAP), "misuse": (), "threads": ("-pthread",)}


@dataclasses.dataclass(frozen=True)
class Ended:
    """How a program ended: its status, and all that it told."""

    status: int
    said: str

    @property
    def is_well(self) -> bool:
        """Whether it passed all that it counted, and found something to count; and the tool over it, if there is one, found nothing."""
        counts = COUNTED.search(self.said)
        return self.status == 0 and counts is not None and int(counts[1]) > 0 and int(counts[2]) == 0


class Callers:
    """The callers over the library in a folder, compiled into a room."""

    def __init__(self, library: pathlib.Path, room: pathlib.Path) -> None:
        self.library, self.room = library, room

    def compiled(self, caller: str, flag: str = "", fault: str = "") -> pathlib.Path:
        """A caller, over the library as it is or over one with a fault."""
        program = pathlib.Path(tempfile.mkdtemp(dir=self.room), caller)
        files = [it if it.startswith("-") else CALLERS / it for it in NEEDS[caller]]
        spoils = [CALLERS / "faults.c", f"-DFAULT={fault}", *SPOILT] if fault else []
        command = [*COMPILE, *filter(None, [flag]), "-o", program, CALLERS / f"{caller}.c", *files, *spoils, self.library / "libmt.a"]
        subprocess.run(command, check=True)
        return program


def ran(program: pathlib.Path, words: Sequence[object] = (), under: Sequence[str] = ()) -> Ended:
    """How a program ended, under a tool if one is named."""
    command = [*under, program, *words]
    done = subprocess.run([str(it) for it in command], stdout=subprocess.PIPE, stderr=subprocess.STDOUT, stdin=subprocess.DEVNULL, text=True, errors="replace")
    return Ended(done.returncode, done.stdout)


def has_valgrind() -> bool:
    return shutil.which("valgrind") is not None


def names_in(file: pathlib.Path, *flags: str) -> set[str]:
    """The names that an object file, an archive or a shared object has, of those that `nm` tells with these flags; but for weak ones."""
    told = subprocess.run(["nm", *flags, file], stdout=subprocess.PIPE, check=True, text=True).stdout
    found = (re.fullmatch(r"[0-9a-f ]{16} ([A-Za-z]) (\S+)", line) for line in told.splitlines())
    return {it[2].partition("@")[0] for it in found if it and it[1] != "w"}
