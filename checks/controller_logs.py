"""Logs in SQLite and in etcd, read and written without the controller; the nodes of an etcd; and servers between or in its place."""
from __future__ import annotations

import base64
import contextlib
import http.client
import http.server
import itertools
import json
import pathlib
import random
import signal
import socket
import sqlite3
import subprocess
import threading
import time
from collections.abc import Callable, Iterator, Sequence
from typing import Any

from controller_runs import until

NODES = 3
TRIES = 5  # to start nodes at ports that the system chose, which somebody may take meanwhile


class SqliteAt:
    """A log in a file."""

    def __init__(self, path: pathlib.Path) -> None:
        self.path = path

    def words(self, turn: int = 0) -> list[str]:
        return ["--log", f"sqlite:{self.path}"]

    def entries(self) -> list[bytes]:
        return [text for _, text in self._did("SELECT place, entry FROM entries ORDER BY place")]

    def put(self, place: int, text: bytes) -> None:
        self._did("INSERT OR REPLACE INTO entries VALUES (?, ?)", place, text)

    def take(self, place: int) -> None:
        self._did("DELETE FROM entries WHERE place = ?", place)

    def state(self) -> object:
        return self.path.read_bytes() if self.path.is_file() else None

    @contextlib.contextmanager
    def held(self) -> Iterator[None]:
        """Nobody else can write to the file meanwhile."""
        file = sqlite3.connect(self.path, isolation_level=None)
        try:
            file.execute("BEGIN IMMEDIATE")
            yield
        finally:
            file.close()

    def _did(self, order: str, *values: object) -> list[tuple[int, bytes]]:
        file = sqlite3.connect(self.path, timeout=60, isolation_level=None)
        try:
            return file.execute(order, values).fetchall()
        finally:
            file.close()


class EtcdAt:
    """A log below a prefix of an etcd. It may be reached through other ports than those of the nodes."""

    def __init__(self, nodes: "Nodes", prefix: str, ports: Sequence[int] = ()) -> None:
        self.nodes, self.prefix, self.ports = nodes, prefix, ports or nodes.ports

    def words(self, turn: int = 0) -> list[str]:
        ports = [*self.ports[turn:], *self.ports[:turn]]
        return ["--log", f"etcd:{','.join(f'127.0.0.1:{it}' for it in ports)}", "--prefix", self.prefix]

    def entries(self) -> list[bytes]:
        answer = self.nodes.asked("/v3/kv/range", {"key": _text(self.prefix + "/"), "range_end": _text(self.prefix + "0")})
        return [base64.b64decode(it["value"]) for it in answer.get("kvs", [])]

    def put(self, place: int, text: bytes) -> None:
        self.put_key(f"{self.prefix}/{place:016d}", text)

    def put_key(self, key: str, text: bytes) -> None:
        self.nodes.asked("/v3/kv/put", {"key": _text(key), "value": base64.b64encode(text).decode()})

    def take(self, place: int) -> None:
        self.nodes.asked("/v3/kv/deleterange", {"key": _text(f"{self.prefix}/{place:016d}")})

    def state(self) -> object:
        """The keys below the prefix with their revisions: others write to the same etcd meanwhile."""
        answer = self.nodes.asked("/v3/kv/range", {"key": _text(self.prefix + "/"), "range_end": _text(self.prefix + "0")})
        return answer.get("kvs", [])


class Nodes:
    """Three nodes of an etcd on the loopback, which are there once this is."""

    def __init__(self, room: pathlib.Path) -> None:
        self.room = room
        self.processes: list[subprocess.Popen[bytes] | None] = [None] * NODES
        for attempt in range(TRIES):
            self.ports, self._peers = free_ports(NODES), free_ports(NODES)
            self._data = room / f"data{attempt}"
            list(map(self.start, range(NODES)))
            if until(self.answers, 30):
                return
            self.end()
        raise OSError(f"etcd doesn't start: {(self.room / 'etcd0.log').read_text(errors='replace')[-500:]}")

    def start(self, node: int) -> None:
        """Starts a node, on its data if it has some."""
        cluster = ",".join(f"n{at}=http://127.0.0.1:{port}" for at, port in enumerate(self._peers))
        client, peer = f"http://127.0.0.1:{self.ports[node]}", f"http://127.0.0.1:{self._peers[node]}"
        words = ["etcd", "--name", f"n{node}", "--data-dir", self._data / str(node)]
        words += ["--initial-cluster", cluster, "--initial-cluster-token", str(self._peers[0])]
        words += ["--listen-client-urls", client, "--advertise-client-urls", client, "--listen-peer-urls", peer, "--initial-advertise-peer-urls", peer]
        with open(self.room / f"etcd{node}.log", "ab") as said:
            self.processes[node] = subprocess.Popen(words, stdin=subprocess.DEVNULL, stdout=said, stderr=said)

    def start_again(self, node: int) -> bool:
        """Starts a node that was killed; whether it stays: its port may have been taken for a while."""
        for _ in range(TRIES):
            self.start(node)
            if until(lambda: self._answers_at(self.ports[node]) or self.processes[node].poll() is not None, 30) and self.processes[node].poll() is None:
                return True
            time.sleep(1)
        return False

    def signal(self, number: int, *nodes: int) -> None:
        for node in nodes:
            self.processes[node].send_signal(number)
            if number == signal.SIGKILL:
                self.processes[node].wait()

    def answers(self) -> bool:
        """Whether all nodes answer, each for most of them."""
        return all(map(self._answers_at, self.ports))

    def _answers_at(self, port: int) -> bool:
        try:
            return "header" in posted(port, "/v3/kv/range", {"key": _text("/")})
        except (OSError, ValueError, http.client.HTTPException):
            return False

    def asked(self, path: str, body: dict[str, Any]) -> dict[str, Any]:
        """What the first node that answers says."""
        for port in self.ports:
            try:
                return posted(port, path, body)
            except (OSError, ValueError, http.client.HTTPException) as error:
                why = error
        raise why

    def end(self) -> None:
        for it in self.processes:
            if it:
                it.kill()
                it.wait()


def posted(port: int, path: str, body: dict[str, Any]) -> dict[str, Any]:
    """What a node answers; `OSError` if that is none."""
    connection = http.client.HTTPConnection("127.0.0.1", port, timeout=10)
    try:
        connection.request("POST", path, json.dumps(body))
        given = connection.getresponse()
        answer = json.loads(given.read())
        if given.status != 200:
            raise OSError(f"etcd answers {given.status}: {answer}")
        return answer
    finally:
        connection.close()


def free_ports(count: int) -> list[int]:
    """Ports that the system chooses."""
    sockets = [socket.create_server(("127.0.0.1", 0)) for _ in range(count)]
    ports = [it.getsockname()[1] for it in sockets]
    for it in sockets:
        it.close()
    return ports


def _text(value: str) -> str:
    return base64.b64encode(value.encode()).decode()


# ---- servers


class Served(http.server.ThreadingHTTPServer):
    """A server on the loopback, in a thread of its own; `close` ends it."""

    daemon_threads = True

    def __init__(self, handler: type[http.server.BaseHTTPRequestHandler]) -> None:
        super().__init__(("127.0.0.1", 0), handler)
        self.port = self.server_address[1]
        threading.Thread(target=self.serve_forever, daemon=True).start()

    def close(self) -> None:
        self.shutdown()
        self.server_close()


class Quiet(http.server.BaseHTTPRequestHandler):
    """Answers that aren't told on standard error."""

    protocol_version = "HTTP/1.1"
    wbufsize = -1  # an answer is sent in one piece

    def log_message(self, *_: object) -> None:
        pass

    def body(self) -> bytes:
        return self.rfile.read(int(self.headers["Content-Length"]))

    def give(self, status: int, answer: bytes) -> None:
        self.send_response(status)
        self.send_header("Content-Length", str(len(answer)))
        self.end_headers()
        self.wfile.write(answer)


def answering(status: int, answer: bytes) -> Served:
    """A server that gives the same answer to whatever is posted."""

    class Same(Quiet):
        def do_POST(self) -> None:
            self.body()
            self.give(status, answer)

    return Served(Same)


def lossy(node: int, fates: Callable[[], str]) -> Served:
    """A server before a node, by which transactions get lost. `fates` says of each whether it is `lost` on its way, its `answer lost`, or it is passed on
    `late`, when who sent it waits no more; if it says nothing, the transaction is answered.
    """

    class Lossy(Quiet):
        def do_POST(self) -> None:
            body = self.body()
            fate = fates() if self.path == "/v3/kv/txn" else ""
            self.close_connection = bool(fate)
            if fate == "lost":
                return
            if fate == "late":
                time.sleep(6)
            given = json.dumps(posted(node, self.path, json.loads(body))).encode()
            if not fate:
                self.give(200, given)

    return Served(Lossy)


def drawn_fates(seed: int, tally: Callable[..., None]) -> Callable[[], str]:
    """Fates that are drawn: of eight transactions three get lost, and one of all is late.

    Of the first ones, as the log is opened, only an answer gets lost, once: a controller that can't open its log ends.
    """
    drawn, count, lock = random.Random(seed), itertools.count(), threading.Lock()
    known = {0: "answer lost", 1: "", 2: "", 40: "late"}

    def fate() -> str:
        with lock:
            found = drawn.choice(["", "", "", "", "", "lost", "answer lost", "answer lost"])
            found = known.get(next(count), found)
        if found:
            tally(faults=1)
        return found

    return fate
