"""What comes to the page's server: each request is read within limits, and refused with a line of text unless it is one that the page sends."""
from __future__ import annotations

import hmac
import io
import ipaddress
import json
import socket
import time
from collections.abc import Mapping
from http import HTTPStatus
from http.server import BaseHTTPRequestHandler
from typing import TYPE_CHECKING, Any

if TYPE_CHECKING:
    from mt_controller.server import PageServer

MOST_BODY = 6 * (4096 + 2) + 1024  # bytes: a letter of the longest line, or of its end, takes six of JSON at most, and the rest of a body a thousand
MOST_HEAD = 16_384  # bytes
IDLE = 5.0  # seconds without a byte
WHOLE = 10.0  # seconds for all of a request, and for all of its answer
DRAINED = 0.5  # seconds for what is still sent when it is refused
JSON, TEXT = "application/json", "text/plain; charset=utf-8"
ON_EACH = {
    "X-Content-Type-Options": "nosniff",
    "Cache-Control": "no-store",
    "Referrer-Policy": "no-referrer",
    "Connection": "close",
}


class Refused(Exception):
    """A request that isn't answered; with the status, why in a line, and headers that the status asks for."""

    def __init__(self, status: HTTPStatus, why: str, headers: Mapping[str, str] | None = None) -> None:
        super().__init__(why)
        self.status, self.headers = status, headers or {}


def written(status: HTTPStatus, kind: str, body: bytes, headers: Mapping[str, str]) -> bytes:
    """An answer with the headers that each has, and these."""
    told = {"Content-Type": kind, "Content-Length": str(len(body)), **ON_EACH, **headers}
    head = [f"HTTP/1.0 {status.value} {status.phrase}", *(f"{name}: {value}" for name, value in told.items()), "", ""]
    return "\r\n".join(head).encode("latin-1") + body


class Limited(io.RawIOBase):
    """What a connection sends, until it is too much or too late. Raises `Refused` then."""

    def __init__(self, connection: socket.socket) -> None:
        super().__init__()
        self._connection, self._left, self._until = connection, MOST_HEAD + MOST_BODY, time.monotonic() + WHOLE

    def readable(self) -> bool:
        return True

    def readinto(self, buffer: Any) -> int:
        left = self._until - time.monotonic()
        if self._left == 0:
            raise Refused(HTTPStatus.REQUEST_HEADER_FIELDS_TOO_LARGE, "the request is too long")
        try:
            self._connection.settimeout(max(min(left, IDLE), 0.001))
            got = self._connection.recv_into(memoryview(buffer)[: self._left])
        except socket.timeout as why:
            raise Refused(HTTPStatus.REQUEST_TIMEOUT, "the request didn't come in time") from why
        self._left -= got
        return got


class PageHandler(BaseHTTPRequestHandler):
    """A connection, which has one request: so none stays open, and a browser sends none twice by itself."""

    server: PageServer
    protocol_version = "HTTP/1.0"

    def setup(self) -> None:
        self.connection: socket.socket = self.request
        self.rfile = io.BufferedReader(Limited(self.connection))
        self.wfile = self.connection.makefile("wb")

    def handle(self) -> None:
        """Answers, or refuses; a client that has gone is none to tell."""
        try:
            try:
                kind, body = self._answered()
                self._send(HTTPStatus.OK, kind, body, {})
            except Refused as why:
                self._send(why.status, TEXT, f"{why}\n".encode(), why.headers)
                self._drain()
        except OSError:
            pass

    def finish(self) -> None:
        """Nothing: all was sent, or can't be."""

    def send_error(self, code: int, message: str | None = None, explain: str | None = None) -> None:
        """What the base class says of a request that it can't read."""
        raise Refused(HTTPStatus(code), "that isn't a request that can be read")

    def log_message(self, *_: object) -> None:
        """Nothing: requests aren't told."""

    # ---- what is asked

    def _answered(self) -> tuple[str, bytes]:
        """The answer to the request: its type, and its bytes. Raises `Refused`, and `OSError` if the client has gone."""
        self.raw_requestline = self.rfile.readline(MOST_HEAD + 1)
        if not self.raw_requestline:
            raise ConnectionError("nothing was asked")
        if len(self.raw_requestline) > MOST_HEAD:
            raise Refused(HTTPStatus.REQUEST_URI_TOO_LONG, "the path is too long")
        self.command, self.request_version = "", "HTTP/1.0"
        if not self.parse_request():
            self.send_error(HTTPStatus.BAD_REQUEST)
        host = self._host()
        if self.headers.get_all("Origin", [f"http://{host}"]) != [f"http://{host}"]:
            raise Refused(HTTPStatus.FORBIDDEN, "the request comes from another site's page")
        file, call = self.server.files.get(self.path), self.server.calls.get(self.path)
        if not file and not call:
            raise Refused(HTTPStatus.NOT_FOUND, "there is no such path")
        method = "GET" if file else "POST"
        if self.command != method:
            raise Refused(HTTPStatus.METHOD_NOT_ALLOWED, f"only {method} is answered here", {"Allow": method})
        if file:
            return file
        self._check_token()
        return JSON, call(self._body())

    def _host(self) -> str:
        """The name that the request calls this server by: one that it listens as, as a name of another site may lead here."""
        told = [it.lower() for it in self.headers.get_all("Host", [])]
        names = {self.server.name.lower(), self._own_address()}
        if ipaddress.ip_address(self._own_address().strip("[]")).is_loopback:
            names.add("localhost")
        port = self.server.server_port
        if len(told) != 1 or told[0] not in {f"{it}:{port}" for it in names} | ({*names} if port == 80 else set()):
            raise Refused(HTTPStatus.MISDIRECTED_REQUEST, "this server isn't called so: open the page by the address that it listens on")
        return told[0]

    def _own_address(self) -> str:
        """The address at which the connection arrived, as a host is written."""
        own = ipaddress.ip_address(self.connection.getsockname()[0].partition("%")[0])
        own = getattr(own, "ipv4_mapped", None) or own
        return str(own) if own.version == 4 else f"[{own}]"

    def _check_token(self) -> None:
        token = self.server.token
        told = self.headers.get("Authorization", "").encode("utf-8", "replace")
        if token is not None and not hmac.compare_digest(told, b"Bearer " + token):
            raise Refused(HTTPStatus.UNAUTHORIZED, "the token is missing, or isn't this controller's", {"WWW-Authenticate": "Bearer"})

    def _body(self) -> Any:
        """The JSON of the body, of the form that the page sends."""
        if self.headers.get_all("Content-Type") != [JSON]:
            raise Refused(HTTPStatus.UNSUPPORTED_MEDIA_TYPE, f"a body has to be {JSON}")
        length = self.headers.get_all("Content-Length", [])
        if len(length) != 1 or "Transfer-Encoding" in self.headers:
            raise Refused(HTTPStatus.LENGTH_REQUIRED, "a body has to have a length, told before it")
        if not (length[0].isascii() and length[0].isdigit()):
            raise Refused(HTTPStatus.BAD_REQUEST, "that is no length")
        if len(length[0]) > 9 or int(length[0]) > MOST_BODY:
            raise Refused(HTTPStatus.REQUEST_ENTITY_TOO_LARGE, f"a body has {MOST_BODY:,} bytes at most")
        body = self.rfile.read(int(length[0]))
        try:
            return json.loads(body.decode())
        except (ValueError, RecursionError) as why:
            raise Refused(HTTPStatus.BAD_REQUEST, "the body isn't JSON, or isn't whole") from why

    # ---- what is answered

    def _send(self, status: HTTPStatus, kind: str, body: bytes, headers: Mapping[str, str]) -> None:
        self.connection.settimeout(WHOLE)
        self.wfile.write(written(status, kind, body, {"Content-Security-Policy": self.server.policy, **headers}))
        self.wfile.flush()

    def _drain(self) -> None:
        """Takes what is still sent, for a while: a connection that is closed on it would take the answer away from who sends."""
        self.connection.shutdown(socket.SHUT_WR)
        until = time.monotonic() + DRAINED
        while (left := until - time.monotonic()) > 0:
            self.connection.settimeout(left)
            if not self.connection.recv(65_536):
                return
