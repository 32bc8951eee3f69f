"""What runs from the unpacked folder, and below the folder of an installation: the program, the tools, a caller in C, one in Python."""
from __future__ import annotations

import pathlib
import shutil
import sys
from collections.abc import Iterator
from dataclasses import dataclass

from known_scripts import examples
from release_archives import TOP, Case, ran

TYPED = "keyspace commerce\nkeyspace customer\ntable commerce corder\ncreate mv commerce customer cordr\ncreate mv commerce customer corder\nwhere corder\n"
REHEARSED = "checks/rehearsals/one_table"
DRAWN = "examples/two_shards.script"
PYTHON = "import mt, sys; print(end=mt.run(sys.stdin.read(), sys.argv[1:]))"
STATUS_OF_PLAN = 1


def all_below(folder: pathlib.Path) -> dict[str, str]:
    """Each file and folder below a folder, with its mode, and what it holds or leads to."""
    found = {}
    for path in sorted(folder.rglob("*")):
        held = str(path.readlink()) if path.is_symlink() else "" if path.is_dir() else path.read_bytes().hex()
        found[str(path.relative_to(folder))] = f"{path.lstat().st_mode:o} {held}"
    return found


def prints_examples(folder: pathlib.Path, program: list[object]) -> bool:
    """Whether the program prints of each example that is packed what stands beside it."""
    is_so = True
    for name, keyspaces, script, output in examples():
        packed = (folder / name).read_text() == script and (folder / name).with_suffix(".output").read_text() == output
        done = ran([*program, "run", *keyspaces], folder, input=script, stdin=None)
        is_so = is_so and packed and (done.returncode, done.stdout) == (0, output)
    return is_so


def tools_print(folder: pathlib.Path, cwd: pathlib.Path, program: pathlib.Path, prompt: object, rehearse: object) -> Iterator[Case]:
    """Whether the tools of a folder print what those of the repository do."""
    asked = {"input": TYPED, "stdin": None}
    own = ran([TOP / "tools/prompt", "--mt", program], TOP, **asked)
    done = ran([prompt], cwd, **asked)
    yield "the prompt", (done.returncode, done.stdout) == (own.returncode, own.stdout) and "F2 NoTable" in own.stdout
    done = ran([folder / "tools/controller", "--log", f"sqlite:{cwd}/unpacked.db", "--batch", "commerce"], cwd, input="keyspace commerce\n", stdin=None)
    yield "the controller", (done.returncode, done.stdout) == (0, "ok\n")
    done = ran([rehearse, folder / REHEARSED], cwd)
    yield "the rehearsal", (done.returncode, done.stdout) == (STATUS_OF_PLAN, (TOP / f"{REHEARSED}.output").read_text())


def draws(folder: pathlib.Path, cwd: pathlib.Path, program: pathlib.Path, picture: object) -> Iterator[Case]:
    """Whether the tool for pictures draws what that of the repository does."""
    own, made = cwd / "own.html", cwd / "made.html"
    ran([TOP / "tools/picture", TOP / DRAWN, "-o", own, "--mt", program], TOP)
    done = ran([picture, folder / DRAWN, "-o", made], cwd)
    yield "the picture, as a page", done.returncode == 0 and made.read_bytes() == own.read_bytes()
    if not shutil.which("node") and not shutil.which("nodejs"):
        yield "the picture, by node", None
        return
    done = ran([picture, folder / DRAWN, "--svg", cwd / "made.svg"], cwd)
    yield "the picture, by node", done.returncode == 0 and (cwd / "made.svg").read_bytes() == (TOP / "docs/pictures/two_shards.svg").read_bytes()


@dataclass(frozen=True)
class Places:
    """Where the documents, examples and callers stand, and where the header, the libraries and the module of Python do."""

    tree: pathlib.Path
    include: pathlib.Path
    library: pathlib.Path
    module: pathlib.Path


def callers(at: Places, cwd: pathlib.Path) -> Iterator[Case]:
    """Whether a program in C that is linked with either library, and one in Python, print what the program does."""
    script, output = at.tree / DRAWN, (at.tree / DRAWN).with_suffix(".output").read_text()
    words = ["commerce", "customer"]
    ways = {"the library, linked": [at.library / "libmt.a"], "the shared library": ["-L", at.library, "-lmt", f"-Wl,-rpath,{at.library}"]}
    for name, linked in ways.items():
        if not shutil.which("cc"):
            yield name, None
            continue
        built = ran(["cc", "-Wall", "-Werror", "-I", at.include, "-o", cwd / "caller", at.tree / "embed/run.c", *linked], cwd)
        with script.open() as lines:
            done = ran([cwd / "caller", *words], cwd, stdin=lines) if built.returncode == 0 else built
        yield name, (done.returncode, done.stdout) == (0, output)
    with script.open() as lines:
        done = ran([sys.executable, "-c", PYTHON, *words], cwd, stdin=lines, env={"PYTHONPATH": str(at.module), "PYTHONDONTWRITEBYTECODE": "1"})
    yield "the library in Python", (done.returncode, done.stdout) == (0, output)


def runs(room: pathlib.Path, folder: pathlib.Path, program: pathlib.Path) -> Iterator[Case]:
    """Of the unpacked folder whether all runs there, and writes nothing there."""
    before = all_below(folder)
    cwd = room / "elsewhere"
    cwd.mkdir()
    yield "unpacked, the examples", prints_examples(folder, ["./mt"])
    tools = folder / "tools"
    for name, is_so in (*tools_print(folder, cwd, program, tools / "prompt", tools / "rehearse"), *draws(folder, cwd, program, tools / "picture")):
        yield f"unpacked, {name}", is_so
    for name, is_so in callers(Places(folder, folder / "include", folder / "lib", folder / "lib"), cwd):
        yield f"unpacked, {name}", is_so
    yield "unpacked, nothing is written", all_below(folder) == before
