"""tools/prompt over a pipe and at a terminal: what it prints behind each line of checks/prompt.session, and the scripts of examples/ line by line."""
from __future__ import annotations

import functools
import importlib.util
import os
import pathlib
import pty
import re
import select
import signal
import subprocess
import sys
import tempfile
from collections.abc import Iterator

from asleep import LOOKS, is_stuck

TOP = pathlib.Path(__file__).resolve().parent.parent
PROMPT = [sys.executable, str(TOP / "tools/prompt")]
SESSION = TOP / "checks/prompt.session"
ASKS = "mt> "
# Words that are typed with Tab, and the line that they become; each behind the lines of SETTING.
SETTING = [
    *("keyspace commerce", "keyspace customer -80,80-", "table commerce corder", "table commerce cart"),
    *("rule old commerce.corder", "create mv commerce customer corder"),
]
TABS = {
    "sho\tm\t": "show mv ",
    "get old\t1": "get old 1",
    "advance m\tforward/8\t": "advance mv forward/80- ",
    "begin-s\tmv rep\t": "begin-switch mv replica",
    "begin-s\tmv replica,rd\t": "begin-switch mv replica,rdonly",
    "create m2 comm\tcust\tca\t": "create m2 commerce customer cart",
    "wher\tcommerce.ca\t": "where commerce.cart",
    "xyz\t": "xyz",
    "at commerce.ca\tge\t": "at commerce.cart get ",
}


def session() -> list[tuple[str, list[str]]]:
    """The lines of the session, each with what is printed behind it."""
    found: list[tuple[str, list[str]]] = []
    for line in SESSION.read_text(encoding="utf-8").splitlines():
        if line.startswith(ASKS.rstrip()):
            found.append((line[len(ASKS) :], []))
        else:
            found[-1][1].append(line)
    return found


def piped(program: str, lines: bytes, *words: str, cwd: str | None = None) -> subprocess.CompletedProcess:
    """A prompt whose lines come from a pipe."""
    return subprocess.run([*PROMPT, "--mt", program, *words], input=lines, stdout=subprocess.PIPE, stderr=subprocess.PIPE, cwd=cwd)


class Terminal:
    """A prompt at a terminal."""

    def __init__(self, program: str) -> None:
        self.master, slave = pty.openpty()
        words = [*PROMPT, "--mt", program]
        environment = dict(os.environ, TERM="dumb", INPUTRC="/dev/null", LC_ALL="C.UTF-8", COLUMNS="1000")
        # whoever runs this may ignore Ctrl-C
        interruptible = functools.partial(signal.signal, signal.SIGINT, signal.SIG_DFL)
        self.process = subprocess.Popen(words, stdin=slave, stdout=slave, stderr=slave, env=environment, start_new_session=True, preexec_fn=interruptible)
        os.close(slave)
        self.echo = self.read()

    def read(self) -> str:
        """What is printed up to the next prompt, or to the end, or until it waits to be told more."""
        said, is_waiting = b"", False
        while not said.endswith(ASKS.encode()):
            ready, _, _ = select.select([self.master], [], [], 0 if is_waiting else LOOKS)
            if not ready and is_waiting:
                break
            try:
                said += os.read(self.master, 65536) if ready else b""
            except OSError:  # it has ended
                break
            is_waiting = not ready and is_stuck(self.process.pid)
        return said.decode(errors="replace").replace("\r\n", "\n")

    def type(self, text: str) -> str:
        """What is printed behind the echo of a text that is typed."""
        os.write(self.master, text.encode() + b"\n")
        self.echo, _, behind = self.read().replace("\a", "").partition("\n")
        return behind

    def type_each(self, lines: list[str]) -> list[str]:
        """What is printed behind each of some lines."""
        return [self.type(line) for line in lines]

    def interrupt(self) -> str:
        """What is printed behind Ctrl-C. One that comes while readline looks at another byte waits for the next, so it is sent again."""
        said = ""
        for _ in range(10):
            self.process.send_signal(signal.SIGINT)
            said += self.read()
            if said.endswith(ASKS):
                break
        return said

    def end(self) -> int:
        """Ends it by Ctrl-D; gives its status. One that waits for more is killed."""
        os.write(self.master, b"\x04")
        while self.process.poll() is None:
            try:
                self.process.wait(LOOKS)
            except subprocess.TimeoutExpired:
                if is_stuck(self.process.pid):
                    self.process.kill()
        os.close(self.master)
        return self.process.returncode


def over_a_pipe(program: str) -> Iterator[str | None]:
    """What the session prints otherwise over a pipe."""
    told = session()
    ended = piped(program, "".join(f"{line}\n" for line, _ in told).encode())
    want = "".join(f"{it}\n" for _, behind in told for it in behind)
    yield difference("the session over a pipe", want, ended)
    for script in sorted((TOP / "examples").glob("*.script")):
        words = re.search(r"^# +\./mt run(.*) < examples/", script.read_text(), re.M)
        ended = piped(program, script.read_bytes(), *(words[1].split() if words else []))
        # the words on refusals are indented, and no answer is
        ended.stdout = b"".join(it for it in ended.stdout.splitlines(keepends=True) if not it.startswith(b"    "))
        yield difference(f"{script.name} at a prompt", script.with_suffix(".output").read_text(), ended)


def difference(what: str, want: str, ended: subprocess.CompletedProcess) -> str | None:
    """Where an output differs from the one that is wanted, or what else is wrong with a run."""
    got = ended.stdout.decode(errors="replace")
    if ended.returncode or ended.stderr:
        return f"{what}: status {ended.returncode}; on standard error: {ended.stderr.decode(errors='replace')[-300:]}"
    if got == want:
        return None
    pairs = list(zip(got.splitlines() + [""] * 999, want.splitlines() + [""] * 999))
    at = next((at for at, pair in enumerate(pairs) if pair[0] != pair[1]), 0)
    return f"{what}: line {at + 1} is `{pairs[at][0]}`; wanted `{pairs[at][1]}`"


def at_a_terminal(program: str) -> Iterator[str | None]:
    """What the session prints otherwise at a terminal; what Tab makes of a line; and how it ends."""
    terminal = Terminal(program)
    told = session()
    for (line, behind), got in zip(told, terminal.type_each([line for line, _ in told])):
        want = "".join(f"{it}\n" for it in behind) + ASKS
        yield None if got == want else f"at a terminal, {line}: {got!r}; wanted {want!r}"
    os.write(terminal.master, b"half a line")
    got = terminal.interrupt()
    yield None if got.endswith(ASKS) and terminal.process.poll() is None else f"Ctrl-C at a terminal prints {got!r}"
    status = terminal.end()
    yield None if status == 0 else f"Ctrl-D at a terminal ends with status {status}"
    yield from tabs(program)


def tabs(program: str) -> Iterator[str | None]:
    """What Tab makes of words, as the terminal echoes it."""
    if not has_readline():
        print("note: Tab isn't tried, as this Python has no readline")
        return
    terminal = Terminal(program)
    terminal.type_each(SETTING)
    for typed, line in TABS.items():
        terminal.type(typed)
        yield None if terminal.echo == line else f"{typed!r} becomes {terminal.echo!r} by Tab; wanted {line!r}"
    terminal.end()


def has_readline() -> bool:
    """Whether this Python completes words by Tab."""
    return importlib.util.find_spec("readline") is not None


def command_lines(program: str) -> Iterator[str | None]:
    """Where a command line of tools/prompt ends otherwise, what it writes, and which keyspaces have a watcher."""
    made = b"keyspace commerce\nkeyspace customer\ntable commerce corder\n"
    create = b"create mv commerce customer corder\n"
    yield prints("no input", piped(program, b""), "")
    yield prints("a watcher for each keyspace", piped(program, made + create), "ok\n" * 4)
    yield prints("a watcher that isn't there", piped(program, made + create + b"lines\n", "commerce"), "ok\nok\nok\nrefused F24 NoWatcher\n", made.decode())
    yield prints("32 keyspaces", piped(program, b"".join(b"keyspace k%d\n" % it for it in range(32))), "ok\n" * 32)
    yield prints("bytes that are no text", piped(program, b"\xff\xfe\nkeyspace a # \xff\n\x00\n\xc2\xa0\n   \nlines\n"), "refused X1 BadLine\n", "keyspace a\n")
    yield prints("quit", piped(program, b"quit\nkeyspace a\n"), "")
    yield prints("no line feed at the end", piped(program, b"keyspace a"), "ok\n")
    for words in (["a!"], ["--mt", "/none"], ["--frobnicate"]):
        ended = piped(program, b"", *words)
        is_right = ended.returncode == 2 and ended.stderr and b"Traceback" not in ended.stderr and not ended.stdout
        yield None if is_right else f"tools/prompt {' '.join(words)}: status {ended.returncode}, {ended.stderr[-300:]!r}"
    with tempfile.TemporaryDirectory() as room:
        piped(program, b"# note\nkeyspace a\nkeyspace a\nbogus\nsave made.script\n", cwd=room)
        saved = pathlib.Path(room, "made.script").read_text()
    yield None if saved == "# ./mt run a\n# note\nkeyspace a\n" else f"save writes {saved!r}"


def prints(what: str, ended: subprocess.CompletedProcess, begins: str, ends: str = "") -> str | None:
    """What is wrong with a run that should end well, and print what begins and ends so."""
    got = ended.stdout.decode(errors="replace")
    is_right = ended.returncode == 0 and not ended.stderr and got.startswith(begins) and got.endswith(ends) and (begins or ends or not got)
    return None if is_right else f"{what}: status {ended.returncode}; it prints {got!r}, and on standard error {ended.stderr[-300:]!r}"
