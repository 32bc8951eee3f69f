"""The server of the page: what it listens on, and what it has to give."""
from __future__ import annotations

import argparse
import base64
import contextlib
import hashlib
import ipaddress
import pathlib
import re
import socket
import socketserver
import sys
import threading
from collections.abc import Callable, Mapping
from dataclasses import dataclass
from http import HTTPStatus
from http.server import ThreadingHTTPServer
from typing import Any

from mt_controller.opened import WrongWords
from mt_controller.requests import TEXT, PageHandler, written
from mt_picture.drawing import FOLDER, IMPORT

MOST_CONNECTIONS = 64  # at once
LEAST_TOKEN = 16  # bytes
ADDRESS = re.compile(r"([^\s/:\[\]]+|\[[0-9a-fA-F:.]+\]):(\d{1,5})")
ENTRY, PAGE, LOOKS = "controller.mjs", "controller.html", ("look.css", "controller.css")
STYLE = re.compile(r"^const STYLE = '([^'\\]*)';$", re.M)  # of a drawing, which is inside it
FULL = b"too many connections are open\n"

Given = tuple[str, bytes]  # a type, and bytes
Call = Callable[[Any], bytes]  # from the JSON of a body to that of an answer


@dataclass(frozen=True)
class Listening:
    """Where a server listens, as it was named and as the system has it; and the token that it asks for, if it does."""

    name: str
    family: socket.AddressFamily
    address: tuple[Any, ...]
    token: bytes | None


def add_serving_words(asked: argparse.ArgumentParser) -> None:
    """Has a command line take the word beside --serve."""
    asked.add_argument("--token", metavar="FILE", help=f"whose first line a page has to know, {LEAST_TOKEN} bytes at least")


def listening(given: argparse.Namespace) -> Listening | None:
    """Where words of a command line say that it listens; None if they don't. Raises `WrongWords`."""
    if given.serve is None:
        if given.token is not None:
            raise WrongWords("--token goes with --serve")
        return None
    found = ADDRESS.fullmatch(given.serve)
    if not found or int(found[2]) > 65_535:
        raise WrongWords(f"{given.serve} is no address: it is ADDRESS:PORT, as 127.0.0.1:8080")
    try:
        family, _, _, _, address = socket.getaddrinfo(found[1].strip("[]"), int(found[2]), type=socket.SOCK_STREAM)[0]
    except (OSError, UnicodeError) as why:
        raise WrongWords(f"{given.serve}: {why}") from why
    token = _token(given.token) if given.token is not None else None
    if token is None and not ipaddress.ip_address(address[0].partition("%")[0]).is_loopback:
        raise WrongWords(f"{given.serve} can be reached from other machines, so that it takes a --token too")
    return Listening(found[1], family, address, token)


def _token(path: str) -> bytes:
    try:
        token = pathlib.Path(path).read_bytes().partition(b"\n")[0].strip()
    except OSError as why:
        raise WrongWords(f"{path}: {why.strerror}") from why
    if len(token) < LEAST_TOKEN or not re.fullmatch(rb"[!-~]+", token):
        raise WrongWords(f"{path}: its first line is no token, which has {LEAST_TOKEN} bytes at least, all of them letters, digits or signs of ASCII")
    return token


class PageServer(ThreadingHTTPServer):
    """Answers each connection in a thread of its own, as long as they aren't too many."""

    daemon_threads = True
    request_queue_size = MOST_CONNECTIONS

    def __init__(self, at: Listening, calls: Mapping[str, Call], tell: Callable[[str], None]) -> None:
        """Listens. Raises `OSError` where it can't."""
        self.address_family = at.family
        self.name, self.token, self.calls = at.name, at.token, calls
        self.files, self.policy = files(), policy()
        self._tell, self._room = tell, threading.BoundedSemaphore(MOST_CONNECTIONS)
        super().__init__(at.address, PageHandler)

    def server_bind(self) -> None:
        # not that of HTTPServer, which asks for the name of the machine
        socketserver.TCPServer.server_bind(self)
        self.server_name, self.server_port = self.name, self.server_address[1]

    def url(self) -> str:
        """The address of the page."""
        return f"http://{self.name}:{self.server_port}/"

    def process_request(self, request: Any, client_address: Any) -> None:
        if self._room.acquire(blocking=False):
            super().process_request(request, client_address)
            return
        with contextlib.suppress(OSError):
            request.settimeout(0)
            request.send(written(HTTPStatus.SERVICE_UNAVAILABLE, TEXT, FULL, {"Content-Security-Policy": self.policy}))
        self.shutdown_request(request)

    def process_request_thread(self, request: Any, client_address: Any) -> None:
        try:
            super().process_request_thread(request, client_address)
        finally:
            self._room.release()

    def handle_error(self, request: Any, client_address: Any) -> None:
        """Tells what went wrong here, in a line."""
        self._tell(f"a request of the page wasn't answered: {sys.exc_info()[1]!r}")


def files() -> dict[str, Given]:
    """What is given by its path: the page, its look, and the modules that it is made of. Nothing else of a path is ever looked for."""
    found = {f"/{name}": ("text/javascript; charset=utf-8", (FOLDER / name).read_bytes()) for name in modules(ENTRY)}
    looks = {f"/{name}": ("text/css; charset=utf-8", (FOLDER / name).read_bytes()) for name in LOOKS}
    return {"/": ("text/html; charset=utf-8", (FOLDER / PAGE).read_bytes()), **looks, **found}


def modules(entry: str) -> set[str]:
    """A module of page/, and all that it imports."""
    found, left = set(), [entry]
    while left:
        name = left.pop()
        found.add(name)
        left += [it for it in IMPORT.findall((FOLDER / name).read_text(encoding="utf-8")) if it not in found]
    return found


def policy() -> str:
    """What a browser lets the page do: ask its own server, and nothing else."""
    (style,) = STYLE.findall((FOLDER / "picture.mjs").read_text(encoding="utf-8"))
    drawn = base64.b64encode(hashlib.sha256(style.encode()).digest()).decode()
    parts = {
        "default-src": "'none'",
        "script-src": "'self'",
        "style-src": f"'self' 'sha256-{drawn}'",
        "img-src": "data:",
        "connect-src": "'self'",
        "base-uri": "'none'",
        "form-action": "'none'",
        "frame-ancestors": "'none'",
    }
    return "; ".join(f"{name} {value}" for name, value in parts.items())
