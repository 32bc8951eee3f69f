"""Tries embed/mt.py over the shared object that MT_LIBRARY names: embed_python.py FOLDER NAME..

Each script of these names in the folder, whose first line has its keyspaces, is answered line by line and as a whole as FOLDER/NAME.want has it. Then
what a caller may do wrong. Prints what isn't as it must be, then 'N passed, M failed'.
"""
from __future__ import annotations

import concurrent.futures
import copy
import gc
import os
import pathlib
import shutil
import subprocess
import sys
import tempfile
import threading
from collections.abc import Callable, Iterator

sys.dont_write_bytecode = True
EMBED = pathlib.Path(__file__).resolve().parent.parent / "embed"
sys.path.insert(0, str(EMBED))
import mt

Try = tuple[str, bool]


def raises(status: mt.Status, call: Callable[[], object]) -> bool:
    """Whether a call raises the library's error with this status."""
    try:
        call()
    except mt.Error as error:
        return error.status == status and bool(str(error))
    return False


def raises_as(kind: type[Exception], call: Callable[[], object]) -> bool:
    try:
        call()
    except kind as error:
        return bool(str(error))
    return False


def script_in(file: pathlib.Path) -> tuple[list[str], bytes, bytes]:
    """The keyspaces, the script and what is wanted of it."""
    first, _, script = file.read_bytes().partition(b"\n")
    return first.decode().split(), script, file.with_name(f"{file.name}.want").read_bytes()


def by_lines(keyspaces: list[str], script: bytes) -> bytes:
    """The answers to the lines of a script, as a run writes them."""
    lines = script.split(b"\n")
    ends = [b"\n"] * (len(lines) - 1) + [b""]
    with mt.Session(keyspaces) as session:
        answers = [session.command(line + end) for line, end in zip(lines, ends)]
    return "".join(f"{it}\n" for it in answers if it).encode()


def scripts(folder: pathlib.Path, names: list[str]) -> Iterator[Try]:
    for name in names:
        keyspaces, script, want = script_in(folder / name)
        yield f"{name}, line by line", by_lines(keyspaces, script) == want
        yield f"{name}, as a whole", mt.run(script, keyspaces).encode() == want
    yield "a script as a text", mt.run("keyspace a\r\n# \udcff\nkeyspace \udcff", ["a"]) == "ok\nrefused X1 BadLine\n"


def sessions() -> Iterator[Try]:
    session = mt.Session()
    yield "a line", session.command("keyspace a") == "ok" and session.command(b"table a t\r\n") == "ok"
    yield "a silent line", session.command("") == "" and session.command("# note\n") == ""
    yield "a line that is two", raises_as(ValueError, lambda: session.command("# a\nkeyspace b"))
    yield "a line feed too many", raises_as(ValueError, lambda: session.command("keyspace b\n\n"))
    yield "a line of other bytes", {session.command(it) for it in ("keyspace \udcff", "keyspace é", b"keyspace \0")} == {"refused X1 BadLine"}
    yield "no text at all", all(raises_as(TypeError, lambda: session.command(it)) for it in (None, 1, [b"dump"])) and session.command("keyspace a") == "refused F30 Exists"
    for number in range(200):
        session.command(f"table a a_table_with_a_long_name_{number}")
    yield "a long document", session.command("dump").count("a_table_with_a_long_name") == 200 and session.command("get a.t 1") == "none"
    yield "a copy is the same session", copy.copy(session).command("keyspace a") == "refused F30 Exists"
    session.close()
    session.close()
    yield "a session that is closed", raises(mt.Status.CLOSED, lambda: session.command("rules"))
    with mt.Session(["a"]) as other:
        pass
    yield "one that a block closed", raises(mt.Status.CLOSED, lambda: other.command("rules"))
    yield "one that is collected is closed", is_closed_when_collected()


def is_closed_when_collected() -> bool:
    session = mt.Session()
    handle = session._handle
    was_open = bool(handle.open)
    del session
    gc.collect()
    return was_open and not handle.open


def keyspaces() -> Iterator[Try]:
    for names in (["a.b"], [""], ["a b"], [" a"], ["é"], ["a\0"], ["a"] * 32):
        yield f"keyspaces {names}", raises(mt.Status.NAMES, lambda: mt.Session(names)) and raises(mt.Status.NAMES, lambda: mt.run("", names))
    yield "31 of them", mt.Session(f"k{it}" for it in range(31)).command("rules") == '{"rules":[]}'
    yield "one text for a list", raises_as(TypeError, lambda: mt.Session("commerce")) and raises_as(TypeError, lambda: mt.run("", "commerce"))
    yield "keyspaces that are no texts", raises_as(TypeError, lambda: mt.Session([1])) and raises_as(TypeError, lambda: mt.run(None))
    yield "a script too long", raises(mt.Status.TOO_LONG, lambda: mt.run(b"#" * 1_048_577)) and mt.run(b"#" * 1_048_576) == ""
    yield "the version", mt.version() == (1, 0, 0)


def threads() -> Iterator[Try]:
    """One session of four threads, whose calls are all done; and as many with one each."""
    with mt.Session() as session, concurrent.futures.ThreadPoolExecutor(4) as pool:
        session.command("keyspace a")
        session.command("table a t")
        told = list(pool.map(lambda number: session.command(f"insert t {number} v{number}"), range(4000)))
        yield "a session of four threads", told == ["ok"] * 4000 and session.command("get t 3999") == "row v3999"
    with concurrent.futures.ThreadPoolExecutor(4) as pool:
        told = list(pool.map(lambda number: mt.run(f"keyspace k{number}\n" * 50), range(40)))
        yield "four sessions in threads", told == ["ok\n" + "refused F30 Exists\n" * 49] * 40
    yield "a session that others close", is_closed_by_others()


def is_closed_by_others() -> bool:
    """Whether a session that is closed while four threads ask it answers each line, or says that it is closed."""
    session, started, odd = mt.Session(), threading.Barrier(5), []

    def ask() -> None:
        started.wait()
        try:
            for _ in range(100_000):
                session.command("rules")
            odd.append("never closed")
        except mt.Error as error:
            odd.extend([] if error.status == mt.Status.CLOSED else [error])

    asking = [threading.Thread(target=ask) for _ in range(4)]
    for it in asking:
        it.start()
    started.wait()
    session.close()
    for it in asking:
        it.join()
    return not odd


def said(library: str, at: pathlib.Path = EMBED) -> str:
    """What a program tells that imports the module of a folder, and then asks for the version, with this word for MT_LIBRARY."""
    program = "import sys; sys.dont_write_bytecode = True; import mt; print('imported')\ntry: print(mt.version())\nexcept mt.NoLibrary as why: print(why)"
    variables = dict(os.environ, MT_LIBRARY=library, PYTHONPATH=str(at))
    ended = subprocess.run([sys.executable, "-c", program], env=variables, stdout=subprocess.PIPE, stderr=subprocess.STDOUT, text=True)
    return ended.stdout if ended.returncode == 0 else f"status {ended.returncode}: {ended.stdout}"


def places() -> Iterator[Try]:
    """Where the shared object is looked for, and what is told where it isn't there or is another file."""
    own = os.environ["MT_LIBRARY"]
    with tempfile.TemporaryDirectory() as room:
        alone = pathlib.Path(room, "embed")
        alone.mkdir()
        shutil.copy(EMBED / "mt.py", alone)
        none = said("", alone)
        yield "none at all", none.startswith("imported\nthere is no ") and all(it in none for it in (f"{alone}/libmt.so", f"{room}/out/libmt.so", "tools/build library"))
        pathlib.Path(room, "out").mkdir()
        shutil.copy(own, pathlib.Path(room, "out/libmt.so"))
        yield "one in out/", said("", alone) == "imported\n(1, 0, 0)\n"
        (alone / "libmt.so").write_bytes(b"none")
        yield "another file beside it", f"{alone}/libmt.so isn't the library that this module is for: " in said("", alone)
        yield "the named one comes first", said(own, alone) == "imported\n(1, 0, 0)\n"
        yield "a named one that isn't there", f"there is no {room}/none.so" in said(f"{room}/none.so", alone)
        yield "a folder", f"{room} isn't the library" in said(room, alone)
        yield "another library", "isn't the library" in said("/lib/x86_64-linux-gnu/libc.so.6", alone) or not pathlib.Path("/lib/x86_64-linux-gnu/libc.so.6").exists()


def main() -> int:
    folder, names = pathlib.Path(sys.argv[1]), sys.argv[2:]
    tries = [*scripts(folder, names), *sessions(), *keyspaces(), *threads(), *places()]
    failed = [name for name, so in tries if not so]
    print("".join(f"{name}: not as it must be\n" for name in failed), end="")
    print(f"{len(tries) - len(failed)} passed, {len(failed)} failed")
    return 1 if failed else 0


if __name__ == "__main__":
    sys.exit(main())
