"""A log in etcd, for controllers on several machines: its JSON gateway, by Python's standard library."""
from __future__ import annotations

import base64
import http.client
import json
import ssl
from collections.abc import Sequence
from dataclasses import dataclass
from typing import Any

from mt_controller.entries import WrongLog
from mt_controller.logs import LogFailed, LogUnreachable, TextAt, changed_at, in_order

AT_ONCE = 50  # entries
PATIENCE = 5  # seconds for an answer of one node
DIGITS = 16  # of a place in its key


@dataclass(frozen=True)
class EtcdAt:
    """Where an etcd listens, as HOST:PORT each, below which key the log is to stand, and how its nodes are spoken with; no `tls` is plain HTTP."""

    nodes: Sequence[str]
    prefix: str = "/mt/log"
    tls: ssl.SSLContext | None = None


class EtcdLog:
    """The entries below a key of an etcd. What `append` has put there stands on the disks of most of its nodes."""

    def __init__(self, at: EtcdAt) -> None:
        self.name = f"etcd:{','.join(at.nodes)} {at.prefix}"
        self._at = at
        self._cluster: str | None = None
        self._connection: http.client.HTTPConnection | None = None
        self._turn = 0

    def read(self, place: int) -> Sequence[bytes]:
        last = _text(self._at.prefix + "0")  # the key behind all that begin with the prefix and a slash
        asked = {"key": self._key(place), "range_end": last, "limit": AT_ONCE, "sort_order": "ASCEND", "sort_target": "KEY"}
        if place == 0:  # whatever stands below the prefix
            asked["key"] = _text(self._at.prefix + "/")
        return in_order([self._entry(it) for it in self._ask("/v3/kv/range", asked).get("kvs", [])], place)

    def append(self, place: int, text: bytes, before: bytes) -> bool:
        key = self._key(place)
        follows = [{"key": self._key(place - 1), "result": "EQUAL", "target": "VALUE", "value": base64.b64encode(before).decode()}] if place else []
        answer = self._ask("/v3/kv/txn", {
            "compare": [{"key": key, "result": "EQUAL", "target": "CREATE", "create_revision": "0"}, *follows],
            "success": [{"request_put": {"key": key, "value": base64.b64encode(text).decode()}}],
            "failure": [{"request_range": {"key": key, "keys_only": True}}]})
        if answer.get("succeeded"):
            return True
        if not answer["responses"][0]["response_range"].get("kvs"):
            raise changed_at(place - 1)
        return False

    def close(self) -> None:
        if self._connection:
            self._connection.close()

    def _key(self, place: int) -> str:
        return _text(f"{self._at.prefix}/{place:0{DIGITS}d}")

    def _entry(self, pair: dict[str, str]) -> TextAt:
        """The entry of a key and its value. Raises `WrongLog` if the key is none of a place."""
        key, value = (base64.b64decode(pair.get(it, "")) for it in ("key", "value"))
        place = key[len(self._at.prefix) + 1 :]
        if len(place) != DIGITS or not place.isdigit():
            raise WrongLog(f"the key {ascii(key.decode(errors='replace'))} is none of a log's")
        return int(place), value

    # ---- what is asked of a node

    def _ask(self, path: str, body: dict[str, Any]) -> dict[str, Any]:
        """The answer of one of the nodes: of the one that answered last, or else of those behind it in turn."""
        for _ in self._at.nodes:
            try:
                return self._of_cluster(self._asked(path, json.dumps(body)))
            except (OSError, http.client.HTTPException, ValueError, LogUnreachable) as error:
                why = str(error) if isinstance(error, LogUnreachable) else f"{self._node()}: {error or type(error).__name__}"
                self._next_node()
        raise LogUnreachable(why)

    def _asked(self, path: str, body: str) -> dict[str, Any]:
        """What a node answers. An error of a node that may go by is `LogUnreachable`, each other `LogFailed`."""
        self._connection = self._connection or self._connected()
        self._connection.request("POST", path, body, {"Content-Type": "application/json"})
        given = self._connection.getresponse()
        answer = given.read()
        if given.status != 200:
            told = f"{self._node()} answered {given.status}: {answer[:200].decode(errors='replace').strip()}"
            raise LogUnreachable(told) if given.status >= 500 or given.status in (408, 429) else LogFailed(told)
        read: dict[str, Any] = json.loads(answer)
        return read

    def _connected(self) -> http.client.HTTPConnection:
        if self._at.tls:
            return http.client.HTTPSConnection(self._node(), timeout=PATIENCE, context=self._at.tls)
        return http.client.HTTPConnection(self._node(), timeout=PATIENCE)

    def _node(self) -> str:
        return self._at.nodes[self._turn % len(self._at.nodes)]

    def _next_node(self) -> None:
        self.close()
        self._connection, self._turn = None, self._turn + 1

    def _of_cluster(self, answer: dict[str, Any]) -> dict[str, Any]:
        """An answer, which must be etcd's, and of the same cluster as all others. Raises `LogFailed` or `WrongLog` otherwise."""
        cluster = answer["header"].get("cluster_id") if isinstance(answer, dict) and isinstance(answer.get("header"), dict) else None
        if cluster is None:
            raise LogFailed(f"what listens at {self._node()} is no etcd with a gateway for /v3")
        self._cluster = self._cluster or cluster
        if cluster != self._cluster:
            raise WrongLog(f"etcd at {self._node()} is of another cluster than the nodes that answered before")
        return answer


def _text(value: str) -> str:
    return base64.b64encode(value.encode()).decode()
