"""Chromium without a screen, driven by the DevTools protocol over a pipe."""
from __future__ import annotations

import base64
import contextlib
import json
import os
import pathlib
import shutil
import subprocess
import tempfile
from collections.abc import Iterator
from typing import Any

BROWSER = "chromium"
FLAGS = ["--headless=new", "--no-sandbox", "--disable-gpu", "--disable-dev-shm-usage", "--no-first-run", "--disable-background-networking"]
FLAGS += ["--disable-extensions", "--mute-audio", "--hide-scrollbars"]
Found = dict[str, Any]


class BrowserFailed(Exception):
    """The browser ended, or refused what it was asked; the text says which."""


def is_there() -> bool:
    """Whether there is a Chromium."""
    return shutil.which(BROWSER) is not None


class Browser:
    """A browser that runs, by its two pipes. Each message is JSON with a zero byte behind it."""

    def __init__(self, reads: int, writes: int) -> None:
        self.reads, self.writes = reads, writes
        self.rest, self.number = b"", 0
        self.told: list[Found] = []

    def message(self) -> Found:
        """The next message of the browser."""
        while b"\0" not in self.rest:
            part = os.read(self.reads, 1 << 20)
            if not part:
                raise BrowserFailed("the browser ended")
            self.rest += part
        one, _, self.rest = self.rest.partition(b"\0")
        found: Found = json.loads(one)
        return found

    def call(self, method: str, session: str | None = None, **words: object) -> Found:
        """Asks for something, and waits for the answer. What the browser tells meanwhile is kept in `told`."""
        self.number += 1
        asked = {"id": self.number, "method": method, "params": words, **({"sessionId": session} if session else {})}
        text = json.dumps(asked).encode() + b"\0"
        while text:
            text = text[os.write(self.writes, text) :]
        while True:
            found = self.message()
            if found.get("id") != self.number:
                self.told.append(found)
            elif "error" in found:
                raise BrowserFailed(f"{method}: {found['error']['message']}")
            else:
                return dict(found["result"])

    def tab(self) -> Tab:
        """A tab with nothing in it."""
        target = self.call("Target.createTarget", url="about:blank")["targetId"]
        session = self.call("Target.attachToTarget", targetId=target, flatten=True)["sessionId"]
        tab = Tab(self, session)
        for domain in ("Page", "Runtime"):
            tab.call(f"{domain}.enable")
        return tab


class Tab:
    """A tab of the browser."""

    def __init__(self, browser: Browser, session: str) -> None:
        self.browser, self.session = browser, session

    def call(self, method: str, **words: object) -> Found:
        """Asks the tab for something."""
        return self.browser.call(method, self.session, **words)

    def value(self, expression: str) -> Any:
        """The value of an expression of JavaScript; of a promise what it comes to. What it throws is raised."""
        found = self.call("Runtime.evaluate", expression=expression, returnByValue=True, awaitPromise=True, userGesture=True)
        if "exceptionDetails" in found:
            details = found["exceptionDetails"]
            raise BrowserFailed(f"{details.get('exception', {}).get('description', details['text'])}, in {expression[:200]}")
        return found["result"].get("value")

    def goto(self, address: str) -> None:
        """Opens an address, and waits until the tab has loaded it."""
        self.browser.told.clear()
        if error := self.call("Page.navigate", url=address).get("errorText"):
            raise BrowserFailed(f"{address[:200]}: {error}")
        while not any(it.get("method") == "Page.loadEventFired" and it.get("sessionId") == self.session for it in self.browser.told):
            self.browser.told.append(self.browser.message())

    def until(self, expression: str) -> Any:
        """Waits, from one frame to the next, until an expression is true, and gives its value."""
        return self.value(f"(async () => {{ for (;;) {{ const it = {expression}; if (it) return it; await new Promise((next) => setTimeout(next, 5)); }} }})()")

    def press(self, key: str, code: str = "", number: int = 0, modifiers: int = 0, text: str = "", **more: object) -> None:
        """Presses a key and lets it go: its name, its place on the keyboard, its number; with 1 for Alt, 2 for Ctrl, 8 for Shift; the text that it types."""
        words = {"key": key, "code": code or key, "windowsVirtualKeyCode": number, "modifiers": modifiers}
        self.call("Input.dispatchKeyEvent", type="keyDown" if text else "rawKeyDown", **words, **({"text": text} if text else {}), **more)
        self.call("Input.dispatchKeyEvent", type="keyUp", **words)

    def screen(self, width: int, height: int, scheme: str) -> None:
        """Sets the size of the window, and whether it is `light` or `dark`."""
        self.call("Emulation.setDeviceMetricsOverride", width=width, height=height, deviceScaleFactor=1, mobile=False)
        self.call("Emulation.setEmulatedMedia", features=[{"name": "prefers-color-scheme", "value": scheme}])

    def shot(self, path: pathlib.Path, whole: bool = True) -> None:
        """Writes what is seen to a file, of the whole page or of the window alone."""
        found = self.call("Page.captureScreenshot", format="png", captureBeyondViewport=whole)
        path.write_bytes(base64.b64decode(found["data"]))


@contextlib.contextmanager
def browsing(*flags: str) -> Iterator[Browser]:
    """A browser with a folder of its own, which ends behind."""
    with tempfile.TemporaryDirectory(ignore_cleanup_errors=True) as home:
        (asks, to_us), (from_us, tells) = os.pipe(), os.pipe()
        # the browser reads from 3 and writes to 4
        words = ["bash", "-c", f'exec "$0" "$@" 3<&{from_us} 4>&{to_us}', BROWSER, *FLAGS, *flags, "--remote-debugging-pipe", f"--user-data-dir={home}", "about:blank"]
        quiet = {"stdin": subprocess.DEVNULL, "stdout": subprocess.DEVNULL, "stderr": subprocess.DEVNULL}
        process = subprocess.Popen(words, pass_fds=(from_us, to_us), env=dict(os.environ, HOME=home), start_new_session=True, **quiet)
        os.close(from_us)
        os.close(to_us)
        try:
            yield Browser(asks, tells)
        finally:
            os.close(tells)  # at which it ends
            process.wait()
            os.close(asks)
