"""What comes to a controller's page by raw sockets: what a browser never sends, too much of it, and too slowly."""
from __future__ import annotations

import contextlib
import json
import random
import re
import secrets
import socket
import threading
from collections.abc import Iterator, Mapping
from concurrent.futures import ThreadPoolExecutor

from controller_page_served import LISTENS, Cases, Place, Serving

TOKEN = "a-token-of-letters"
SEED = 93
ON_EACH = {
    "x-content-type-options": "nosniff",
    "cache-control": "no-store",
    "referrer-policy": "no-referrer",
    "connection": "close",
}
STATE = json.dumps({"run": "", "applied": 0, "picture": 0, "waits": []})
TYPES = ["application/x-www-form-urlencoded", "text/plain", "multipart/form-data; boundary=a", "application/json; a=b"]  # of plain forms, and others
PATHS = ["/no", "/../README.md", "/%2e%2e/README.md", "/?a", "/controller.mjs/", "/tools/controller", "/served", "*", "http://example.com/"]
BODIES = ["{", "[]", "", '{"run":""}', STATE.replace("0", '"0"'), STATE[:-1] + ',"more":1}', "[" * 20_000]
SLOW = {"a slow head": b"POST /line HT", "a slow body": b"\r\n{", "nothing but a connection": b""}


def request(port: int, start: str = "POST /state HTTP/1.1", body: str = STATE, drop: str = "", **headers: str) -> bytes:
    """A request as the page sends it, with other headers, or without one of them."""
    usual = {"Host": f"127.0.0.1:{port}", "Content-Type": "application/json", "Content-Length": str(len(body)), "Authorization": f"Bearer {TOKEN}"}
    told = {**usual, **{name.replace("_", "-"): value for name, value in headers.items()}}
    lines = [start, *(f"{name}: {value}" for name, value in told.items() if name != drop), "", body]
    return "\r\n".join(lines).encode()


def answer_to(port: int, sent: bytes, host: str = "127.0.0.1") -> bytes:
    """What a server sends back until it closes the connection; nothing if it cuts it."""
    with socket.create_connection((host, port)) as connection, contextlib.suppress(ConnectionError):
        connection.sendall(sent)
        parts = []
        while part := connection.recv(65_536):
            parts.append(part)
        return b"".join(parts)
    return b""


def parted(answer: bytes) -> tuple[int, Mapping[str, str], str]:
    """The status of an answer, its headers, and its body."""
    head, _, body = answer.decode("utf-8", "replace").partition("\r\n\r\n")
    first, *lines = head.split("\r\n")
    found = re.fullmatch(r"HTTP/1\.0 (\d{3}) .*", first)
    return int(found[1]) if found else 0, {name.lower(): value for name, _, value in (it.partition(": ") for it in lines)}, body


def wrong(answer: bytes, status: int) -> list[str]:
    """What isn't as it must be with a refusal: its status, a text of one line, and the headers that each answer has."""
    got, headers, body = parted(answer)
    found = [f"status {got}, {body[:100]}"] * (got != status)
    found += [f"the text is {body[:200]!r}"] * (not re.fullmatch(r"[^\n<>]{5,120}\n", body) or "Traceback" in body)
    return found + without_headers(headers)


def without_headers(headers: Mapping[str, str]) -> list[str]:
    """The headers that an answer lacks, of those that each has."""
    found = [f"{name} is {headers.get(name)}" for name, value in ON_EACH.items() if headers.get(name) != value]
    return found + ["the policy lets more in"] * (not headers.get("content-security-policy", "").startswith("default-src 'none'; script-src 'self';"))


def refused_heads(port: int) -> dict[str, tuple[int, bytes]]:
    """Requests with heads that are refused, by what is wrong with them, each with its status."""
    own = f"127.0.0.1:{port}"
    usual = request(port)
    return {
        **{f"the host {it}": (421, request(port, Host=it)) for it in ("example.com", f"example.com:{port}", "127.0.0.1", "127.0.0.1:1", f"{own}.com", "")},
        "no host": (421, request(port, drop="Host")),
        "two hosts": (421, with_line(usual, f"Host: {own}")),
        **{f"the origin {it}": (403, request(port, Origin=it)) for it in ("http://example.com", "null", f"https://{own}", "http://127.0.0.1:1")},
        "a page that another site asks for": (403, request(port, "GET / HTTP/1.1", "", Origin="http://example.com")),
        "no token": (401, request(port, drop="Authorization")),
        "another token": (401, request(port, Authorization="Bearer a-token-of-letterz")),
        "a token of another scheme": (401, request(port, Authorization=f"Basic {TOKEN}")),
        "a token that begins so": (401, request(port, Authorization=f"Bearer {TOKEN[:-1]}")),
        "a token of odd letters": (401, request(port, Authorization="Bearer \u00fc")),
        **{f"the path {it}": (404, request(port, f"GET {it} HTTP/1.1", "")) for it in PATHS},
        **{f"the method {it}": (405, request(port, f"{it} /state HTTP/1.1")) for it in ("GET", "PUT", "DELETE", "OPTIONS", "HEAD", "get", "\u00fc")},
        "a page that is posted to": (405, request(port, "POST / HTTP/1.1")),
        "another protocol": (505, request(port, "POST /state HTTP/2.0")),
        "no request": (400, b"\r\n\r\n"),
        "words that are no request": (400, b"one two three four\r\n\r\n"),
        "a request of the first kind": (421, b"GET /\r\n\r\n"),
        "a path that is too long": (414, b"GET /" + b"a" * 20_000 + b" HTTP/1.1\r\n\r\n"),
        "a head that is too long": (431, request(port, More="a" * 70_000)),
        "a head of too many lines": (431, with_line(usual, "\r\n".join(["A: b"] * 200))),
    }


def refused_bodies(port: int) -> dict[str, tuple[int, bytes]]:
    """Requests with bodies that are refused, by what is wrong with them, each with its status."""
    lengths = {"1x": 400, "-1": 400, "\u00b2": 400, "25700": 413, "9" * 400: 413}
    return {
        **{f"a body of {it}": (415, request(port, Content_Type=it)) for it in TYPES},
        "a body of no type": (415, request(port, drop="Content-Type")),
        "a body without length": (411, request(port, drop="Content-Length")),
        "a body in chunks": (411, request(port, drop="Content-Length", Transfer_Encoding="chunked")),
        "a body in chunks with a length": (411, request(port, Transfer_Encoding="chunked")),
        "two lengths": (411, with_line(request(port), "Content-Length: 1")),
        "a body of 25,700 bytes": (413, request(port, body="a" * 25_700)),
        **{f"a length of {it[:9]}": (status, request(port, Content_Length=it)) for it, status in lengths.items()},
        **{f"the body {it[:40]}": (400, request(port, body=it)) for it in BODIES},
        "a line without a key": (400, request(port, "POST /line HTTP/1.1", '{"key":"","line":"keyspace a"}')),
    }


def with_line(sent: bytes, line: str) -> bytes:
    """A request with one more line in its head."""
    return sent.replace(b"\r\nContent-Type", f"\r\n{line}\r\nContent-Type".encode(), 1)


def refusals(place: Place) -> Cases:
    """Each of these, and the server answers behind it."""
    with serving(place) as served:
        for name, (status, sent) in {**refused_heads(served.port), **refused_bodies(served.port)}.items():
            yield name, wrong(answer_to(served.port, sent), status)
        yield "what is told of all this", still(served)


def answers(place: Place) -> Cases:
    """What is answered: the page's own request, its files, and the names of the loopback."""
    with serving(place) as served:
        got, headers, body = parted(answer_to(served.port, request(served.port)))
        yield "the page's own request", [f"{got} {body[:100]}"] * (got != 200) + without_headers(headers)
        for path in ("/", "/look.css", "/controller.css", "/controller.mjs", "/svg.mjs"):
            got, headers, body = parted(answer_to(served.port, request(served.port, f"GET {path} HTTP/1.1", "", "Authorization")))
            yield f"the file {path}", [f"{got} {body[:100]}"] * (got != 200 or len(body) < 500) + without_headers(headers)
        got, *_ = parted(answer_to(served.port, request(served.port, Host=f"LOCALHOST:{served.port}", Origin=f"http://localhost:{served.port}")))
        yield "the name localhost", [f"status {got}"] * (got != 200)


def serving(place: Place) -> contextlib.AbstractContextManager[Serving]:
    """A controller whose page asks for a token."""
    (place.folder / "token").write_text(TOKEN)
    return place.serving("--token", str(place.folder / "token"))


def still(served: Serving) -> list[str]:
    """What isn't as it must be behind what was tried: that the server answers, and has told nothing."""
    got, _, body = parted(answer_to(served.port, request(served.port)))
    served.process.terminate()
    assert served.process.stderr
    said = served.process.stderr.read()
    return [f"{got} {body[:100]}"] * (got != 200) + [said[:500]] * bool(said)


def slowly(port: int, first: bytes) -> bytes:
    """What a server answers to a request that comes by a byte each half second."""
    with socket.create_connection(("127.0.0.1", port)) as connection:
        connection.sendall(first)
        ended = threading.Event()

        def drip() -> None:
            with contextlib.suppress(OSError):
                while not ended.wait(0.5):
                    connection.sendall(b"a")

        dripping = threading.Thread(target=drip)
        if first:
            dripping.start()
        try:
            answer = b""
            with contextlib.suppress(ConnectionError):
                while part := connection.recv(65_536):
                    answer += part
        finally:
            ended.set()
            if first:
                dripping.join()
    return answer


def floods(place: Place) -> Cases:
    """Slow ones, a hundred and more at once, bytes by chance, and clients that go away: the server answers behind each."""
    with serving(place) as served, ThreadPoolExecutor(len(SLOW)) as pool:
        yield "a hundred and fifty at once", crowd(served)
        whole = request(served.port, body="a" * 1000)
        firsts = {**SLOW, "a slow body": whole[: whole.index(b"\r\n\r\n") + 5]}
        slow = {name: pool.submit(slowly, served.port, first) for name, first in firsts.items()}
        yield "bytes by chance", by_chance(served)
        yield "clients that go away", gone(served)
        yield "a body that is cut", cut(served)
        for name, found in slow.items():
            yield name, wrong(found.result(), 408)
        yield "what is told of floods", still(served)


def cut(served: Serving) -> list[str]:
    """A request that ends in its body."""
    with socket.create_connection(("127.0.0.1", served.port)) as connection:
        connection.sendall(request(served.port)[:-5])
        connection.shutdown(socket.SHUT_WR)
        return wrong(connection.recv(65_536), 400)


def crowd(served: Serving) -> list[str]:
    """Connections that ask for nothing: some are refused, as they are too many, and all is well once they are closed."""
    with contextlib.ExitStack() as stack:
        connections = [stack.enter_context(socket.create_connection(("127.0.0.1", served.port))) for _ in range(150)]
        answer = answer_to(served.port, request(served.port))
    found = [f"one more is answered {answer[:100]!r}"] * (not answer.startswith(b"HTTP/1.0 503 "))
    while not answer.startswith(b"HTTP/1.0 200 "):
        answer = answer_to(served.port, request(served.port))
    return found + [f"{len(connections)} connections"] * (len(connections) != 150)


def by_chance(served: Serving) -> list[str]:
    """Bytes that are drawn at random, always the same ones, by themselves and within a request."""
    chance = random.Random(SEED)
    found = []
    for _ in range(200):
        for sent in (chance.randbytes(chance.randrange(1, 300)) + b"\r\n\r\n", spoilt(request(served.port), chance)):
            with socket.create_connection(("127.0.0.1", served.port)) as connection, contextlib.suppress(ConnectionError):
                connection.sendall(sent)
                connection.shutdown(socket.SHUT_WR)
                answer = connection.recv(65_536)
                found += [f"{sent!r} is answered {answer[:200]!r}"] * (bool(answer) and not answer.startswith(b"HTTP/1.0 ") or b"Traceback" in answer)
    return found


def spoilt(sent: bytes, chance: random.Random) -> bytes:
    """A request of which some bytes are others."""
    whole = bytearray(sent)
    for at in chance.sample(range(len(whole)), chance.randrange(1, 6)):
        whole[at] = chance.randrange(256)
    return bytes(whole)


def gone(served: Serving) -> list[str]:
    """Clients that go away in the middle of a request, or before its answer."""
    whole = request(served.port, "POST /line HTTP/1.1", json.dumps({"key": secrets.token_hex(8), "line": "keyspace a"}))
    for at in range(0, len(whole) + 1, 7):
        with socket.create_connection(("127.0.0.1", served.port)) as connection:
            connection.setsockopt(socket.SOL_SOCKET, socket.SO_LINGER, b"\1\0\0\0\0\0\0\0")  # it is cut, not closed
            connection.sendall(whole[:at])
    return []


def words(place: Place) -> Cases:
    """Words of a command line that name nothing to listen on, or what mustn't be listened on: nothing of a log is made."""
    (place.folder / "short").write_text("too-short\n")
    (place.folder / "odd").write_text("a token with blanks in it\n")
    with socket.create_server(("127.0.0.1", 0)) as taken:
        port = taken.getsockname()[1]
        tries = {
            "an address that others reach": (["--serve", "0.0.0.0:0"], "takes a --token too"),
            "the same of the sixth version": (["--serve", "[::]:0"], "takes a --token too"),
            "no address": (["--serve", "here"], "is no address"),
            "no port": (["--serve", "127.0.0.1:99999"], "is no address"),
            "no such name": (["--serve", "no.such.name.invalid:0"], "no.such.name.invalid:0"),
            "a token that is short": (["--serve", "127.0.0.1:0", "--token", str(place.folder / "short")], "is no token"),
            "a token with blanks": (["--serve", "127.0.0.1:0", "--token", str(place.folder / "odd")], "is no token"),
            "a token that isn't there": (["--serve", "127.0.0.1:0", "--token", str(place.folder / "none")], "No such file"),
            "a token for nothing": (["--token", str(place.folder / "short")], "--token goes with --serve"),
            "two ways": (["--serve", "127.0.0.1:0", "--batch"], "not allowed with argument"),
        }
        for name, (given, wanted) in tries.items():
            yield name, ended(place, given, wanted)
        yield "a port that is taken", ended(place, ["--serve", f"127.0.0.1:{port}"], "Address already in use", makes_log=True)


def ended(place: Place, given: list[str], wanted: str, makes_log: bool = False) -> list[str]:
    """What isn't as it must be with a controller that can't serve."""
    log = place.new_log()
    process = place.begun("--log", log, *given)
    assert process.stderr
    first = process.stderr.readline()
    if LISTENS.fullmatch(first):
        process.kill()
        process.communicate()
        return ["it listens"]
    said = first + process.communicate()[1]
    found = [f"status {process.returncode}"] * (process.returncode != 2) + [said[-300:]] * (wanted not in said or "Traceback" in said)
    return found + ["a log was made"] * ((place.folder / log.rpartition("/")[2]).exists() and not makes_log)


def everywhere(place: Place) -> Cases:
    """A server for all addresses: it answers to the one that a request came to, and to no other name."""
    (place.folder / "token").write_text(TOKEN)
    with place.serving("--token", str(place.folder / "token"), at="0.0.0.0:0") as served:
        for host, status in {"127.0.0.2": 200, "localhost": 200, "127.0.0.1": 421, "example.com": 421}.items():
            got, *_ = parted(answer_to(served.port, request(served.port, Host=f"{host}:{served.port}"), "127.0.0.2"))
            yield f"all addresses, asked as {host}", [f"status {got}"] * (got != status)
    with place.serving() as served:
        with contextlib.suppress(ConnectionRefusedError):
            socket.create_connection(("127.0.0.2", served.port)).close()
            yield "another address", ["is listened on"]
        yield "the page's address alone", []


def sockets(place: Place) -> Iterator[tuple[str, list[str]]]:
    """All of these."""
    for part in (words, refusals, answers, everywhere, floods):
        yield from part(place)
