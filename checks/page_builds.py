"""Builds of the page that end early, with a kit that is faked: what was built before stays whole."""
from __future__ import annotations

import base64
import os
import pathlib
import re
import shutil
import signal
import subprocess
import time
from collections.abc import Iterator
from typing import NamedTuple

TOP = pathlib.Path(__file__).resolve().parent.parent
Cases = Iterator[tuple[str, list[str]]]
OLD = {"mt.wasm": b"an old module", "mt.html": b"an old page"}
# An `rt` of the right kit that never ends a try, and tells that one has begun.
WAITING = """#!/usr/bin/env python3
import pathlib, signal, sys
if sys.argv[1] == "version":
    print("logic {logic}")
elif sys.argv[1] == "doc":
    print("{kit}/README.md")
else:
    pathlib.Path("{begun}").touch()
    signal.pause()
"""


class MadeUp(NamedTuple):
    """A repository without crates, the variables to build there with, and the file by which a tool tells that it is at work."""

    top: pathlib.Path
    variables: dict[str, str]
    begun: pathlib.Path

    @property
    def out(self) -> pathlib.Path:
        return self.top / "out"

    def build(self) -> subprocess.Popen[bytes]:
        """Begins a build."""
        return subprocess.Popen([self.top / "tools/build", "page"], env=self.variables, stdin=subprocess.DEVNULL, stderr=subprocess.DEVNULL)

    def ended(self, number: signal.Signals) -> list[str]:
        """A build that gets a signal while a tool of it is at work, and what isn't as it was behind that."""
        self.begun.unlink(missing_ok=True)
        build = self.build()
        while not self.begun.exists():
            if build.poll() is not None:
                return [f"ends with status {build.returncode} before a tool is at work"]
            time.sleep(0.01)
        rooms = len(list(self.out.glob("building-*")))
        build.send_signal(number)
        build.wait()
        found = [f"{name} is another" for name, data in OLD.items() if (self.out / name).read_bytes() != data]
        return found + [f"{rooms} rooms while it is at work"] * (rooms != 1)


def made_up(folder: pathlib.Path) -> MadeUp:
    """A repository with the tools and the page, and a kit in which nothing ends."""
    top, kit, begun = folder / "made_up", folder / "kit", folder / "begun"
    for name in ("tools", "page", "examples"):
        shutil.copytree(TOP / name, top / name)
    (top / "crates/mt/src").mkdir(parents=True)
    (top / "docs").mkdir()
    for name in ("docs/SCRIPT.md", "README.md", "crates.txt"):
        shutil.copy(TOP / name, top / name)
    for name in ("bin", "toolchain/bin", "toolchain/lib"):
        (kit / name).mkdir(parents=True)
    logic = re.search(r"logic ([0-9a-f]{16})", (TOP / "README.md").read_text())
    for name in ("rt", "rtlib.py"):
        (kit / "bin" / name).write_text(WAITING.format(logic=logic[1] if logic else "", kit=kit, begun=begun))
        (kit / "bin" / name).chmod(0o755)
    (top / "out").mkdir()
    for name, data in OLD.items():
        (top / "out" / name).write_bytes(data)
        os.utime(top / "out" / name, (0, 0))  # older than the sources
    return MadeUp(top, dict(os.environ, PATH=f"{kit / 'bin'}:{os.environ['PATH']}"), begun)


def killed(_page: pathlib.Path, folder: pathlib.Path) -> Cases:
    """Builds that are ended and killed; and the one behind them."""
    # where this runs in the background the signal is ignored, and a program that it starts would ignore it too
    signal.signal(signal.SIGINT, signal.default_int_handler)
    made = made_up(folder)
    for number in (signal.SIGTERM, signal.SIGKILL, signal.SIGINT):
        yield f"a build that gets {number.name}", made.ended(number)
    left = [it.name for it in made.out.iterdir() if it.name.startswith("building-")]
    yield "what is left behind them", [str(left)] if left else []
    os.utime(made.out / "mt.wasm")
    status = made.build().wait()
    text = (made.out / "mt.html").read_text()
    is_whole = status == 0 and base64.b64encode(OLD["mt.wasm"]).decode() in text and text.endswith("</html>\n")
    yield "a build with a module that is there", [] if is_whole else [f"status {status}, {len(text)} letters"]
