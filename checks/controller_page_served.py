"""Controllers that serve a page, as checks/controller_page starts them, and what their server answers."""
from __future__ import annotations

import contextlib
import dataclasses
import http.client
import json
import os
import pathlib
import re
import secrets
import shutil
import signal
import subprocess
import sys
import time
from collections.abc import Iterator, Sequence
from typing import Any

TOP = pathlib.Path(__file__).resolve().parent.parent
LISTENS = re.compile(r"controller: listens on (http://\S+:(\d+)/)\n")
JSON = {"Content-Type": "application/json"}
PATIENCE = 120  # seconds after which a controller that was told to end never will
Cases = Iterator["tuple[str, list[str]]"]


class NotServed(Exception):
    """A controller doesn't serve its page; the text says what it told instead."""


@dataclasses.dataclass(frozen=True)
class Place:
    """The sources that controllers are started from, the program that they are compared with, and a folder for logs."""

    sources: pathlib.Path
    program: pathlib.Path
    folder: pathlib.Path

    def begun(self, *words: str) -> subprocess.Popen[str]:
        """A controller that was started, with these words."""
        command = [sys.executable, self.sources / "tools/controller", *words]
        variables = dict(os.environ, MT_LIBRARY=str(TOP / "out/libmt.so"))
        return subprocess.Popen(command, env=variables, stdin=subprocess.DEVNULL, stderr=subprocess.PIPE, stdout=subprocess.DEVNULL, text=True)

    def new_log(self) -> str:
        """A log of SQLite that isn't there yet."""
        return f"sqlite:{self.folder / secrets.token_hex(4)}.db"

    def batch(self, log: str, lines: Sequence[str]) -> list[str]:
        """The answers of another controller of a log to lines."""
        command = [sys.executable, self.sources / "tools/controller", "--log", log, "--batch"]
        variables = dict(os.environ, MT_LIBRARY=str(TOP / "out/libmt.so"))
        ended = subprocess.run(command, env=variables, input="".join(f"{it}\n" for it in lines), capture_output=True, text=True, check=False)
        if ended.returncode:
            raise NotServed(f"another controller ended with status {ended.returncode}: {ended.stderr[-300:]}")
        return ended.stdout.splitlines()

    @contextlib.contextmanager
    def serving(self, *words: str, log: str = "", at: str = "127.0.0.1:0", watched: Sequence[str] = ("commerce", "customer")) -> Iterator[Serving]:
        """A controller that serves its page, over a new log where none is named; it is ended behind."""
        found = Serving(self, [*words, "--log", log or self.new_log(), "--serve", at, *watched])
        try:
            yield found
        finally:
            found.kill()

    def copied(self, name: str, *edits: tuple[str, str, str]) -> Place:
        """A copy of the sources in which texts of files stand for others."""
        to = self.folder / name
        for folder in ("tools", "page", "embed"):
            shutil.copytree(TOP / folder, to / folder)
        (to / "docs").mkdir()
        shutil.copy(TOP / "docs/SCRIPT.md", to / "docs")
        for file, old, new in edits:
            text = (to / file).read_text(encoding="utf-8")
            if text.count(old) != 1:
                raise NotServed(f"{old} stands {text.count(old)} times in {file}")
            (to / file).write_text(text.replace(old, new), encoding="utf-8")
        return dataclasses.replace(self, sources=to)


class Serving:
    """A controller that serves a page."""

    def __init__(self, place: Place, words: list[str]) -> None:
        self.place, self.words = place, words
        self.log = words[words.index("--log") + 1]
        self.start()

    def start(self) -> None:
        """Starts it; raises `NotServed` if it ends before it listens."""
        self.process = self.place.begun(*self.words)
        assert self.process.stderr
        told = self.process.stderr.readline()
        found = LISTENS.fullmatch(told)
        if not found:
            self.kill()
            raise NotServed(f"the controller tells {told + self.process.stderr.read()}")
        self.url, self.port = found[1], int(found[2])
        self.words = [it if self.words[place - 1] != "--serve" else f"{it.rpartition(':')[0]}:{self.port}" for place, it in enumerate(self.words)]

    def kill(self) -> None:
        """Ends it by force, if it runs."""
        self.process.kill()
        self.process.wait()

    def told(self, number: signal.Signals) -> tuple[int, str]:
        """Its status behind a signal, and what it told since it listens."""
        self.process.send_signal(number)
        assert self.process.stderr
        try:
            return self.process.wait(PATIENCE), self.process.stderr.read()
        except subprocess.TimeoutExpired as why:
            raise NotServed(f"it doesn't end by {number.name}") from why

    def asked(self, path: str, body: object, **headers: str) -> tuple[int, Any]:
        """The status and the answer to what a page asks; of a refusal its text."""
        connection = http.client.HTTPConnection("127.0.0.1", self.port, timeout=60)
        with contextlib.closing(connection):
            connection.request("POST", path, json.dumps(body), {**JSON, **headers})
            answer = connection.getresponse()
            text = answer.read().decode()
        return answer.status, json.loads(text) if answer.status == 200 else text

    def state(self, **more: object) -> dict[str, Any]:
        """What a page is told that has seen nothing."""
        status, told = self.asked("/state", {"run": "", "applied": 0, "picture": 0, "waits": [], **more})
        if status != 200:
            raise NotServed(f"/state is answered {status}: {told}")
        return dict(told)

    def take(self, line: str) -> dict[str, Any] | None:
        """What came of a line; None if it waits."""
        status, told = self.asked("/line", {"key": secrets.token_hex(16), "line": line})
        if status != 200:
            raise NotServed(f"{line} is answered {status}: {told}")
        return dict(told)["outcome"]

    def pictured(self, last: int) -> Any:
        """The facts of the picture once it stands behind so many lines; None if there are none. Raises `NotServed` if the picture failed."""
        while self.process.poll() is None:
            shown = self.state()["picture"]["shown"]
            if shown["applied"] == last:
                return shown["facts"]
            if shown["words"].startswith("There is no new picture"):
                raise NotServed(shown["words"])
            time.sleep(0.05)
        raise NotServed("the controller ended")
