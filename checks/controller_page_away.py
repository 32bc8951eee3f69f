"""A log that doesn't answer for a while, which a page tells: an etcd that is stopped."""
from __future__ import annotations

import contextlib
import pathlib
import secrets
import shutil
import signal
import socket
import subprocess
from collections.abc import Iterator
from concurrent.futures import ThreadPoolExecutor

from browser import Browser
from controller_page_served import TOP, Cases, Place, Serving
from controller_page_tabs import ROWS, Looked

MOST_THAT_WAIT = 20
IS_AWAY = "document.getElementById('status').textContent.includes('log doesn\\'t answer')"


def has_etcd() -> bool:
    """Whether there is an etcd, behind a try to install it."""
    if not shutil.which("etcd"):
        subprocess.run([TOP / "tools/setup-etcd"], stdin=subprocess.DEVNULL, stdout=subprocess.DEVNULL, stderr=subprocess.DEVNULL, check=False)
    return shutil.which("etcd") is not None


def free_ports() -> list[int]:
    """Two ports that nothing listens on."""
    with socket.create_server(("127.0.0.1", 0)) as one, socket.create_server(("127.0.0.1", 0)) as other:
        return [it.getsockname()[1] for it in (one, other)]


@contextlib.contextmanager
def etcd(folder: pathlib.Path) -> Iterator[tuple[subprocess.Popen[bytes], str]]:
    """An etcd of one node, and where it listens."""
    client, peer = (f"http://127.0.0.1:{it}" for it in free_ports())
    words = ["--listen-client-urls", client, "--advertise-client-urls", client, "--listen-peer-urls", peer, "--initial-advertise-peer-urls", peer]
    words += ["--initial-cluster", f"default={peer}", "--data-dir", str(folder / "etcd")]
    process = subprocess.Popen(["etcd", *words], stdin=subprocess.DEVNULL, stdout=subprocess.DEVNULL, stderr=subprocess.DEVNULL)
    try:
        yield process, client.removeprefix("http://")
    finally:
        process.kill()
        process.wait()


def away(place: Place, browser: Browser) -> Cases:
    """The page tells it, and of lines that they wait; they are answered, in their order, when the log is back, and another tab shows them."""
    with etcd(place.folder) as (node, address), place.serving(log=f"etcd:{address}") as served:
        page, other = Looked(browser, served), Looked(browser, served)
        yield "a log in etcd", [page.seen()["log"]] * (not page.sent("keyspace commerce").endswith("ok"))
        node.send_signal(signal.SIGSTOP)
        page.type("keyspace customer")
        page.tab.until(IS_AWAY)
        yield "a line that waits", page.tells("line", "keyspace customer waits for its answer, as the log doesn't answer at the moment")
        yield "too many that wait", many_wait(served)
        node.send_signal(signal.SIGCONT)
        page.tab.until("document.getElementById('status').className === 'well' && !document.getElementById('line').textContent.includes('waits')")
        other.tab.until(f"{ROWS} === {MOST_THAT_WAIT + 1}")
        told = other.seen()["rows"]
        yield "the lines that waited", [f"{told[:2]}"] * (told[:2] != [["keyspace commerce", "ok"], ["keyspace customer", "ok"]])
        node.send_signal(signal.SIGSTOP)
        page.type("keyspace third")
        page.tab.until(IS_AWAY)
        status, said = served.told(signal.SIGTERM)
        found = [f"status {status}"] * (status != 128 + signal.SIGTERM)
        yield "an end without an answer", found + [said] * ("1 line was asked for and not answered" not in said or "Traceback" in said)
        yield "nothing is thrown meanwhile", [it for tab in (page, other) for it in tab.thrown()]


def many_wait(served: Serving) -> list[str]:
    """What isn't as it must be with as many lines as may wait, of which one does already, and one more."""
    with ThreadPoolExecutor(MOST_THAT_WAIT) as pool:
        answers = list(pool.map(lambda it: served.asked("/line", {"key": secrets.token_hex(8), "line": f"get k{it}.t 1"}), range(MOST_THAT_WAIT)))
    refused = [told for status, told in answers if status == 503]
    found = [f"{len(refused)} are refused: {refused[:1]}"] * (len(refused) != 1 or "too many lines wait" not in refused[0])
    return found + [f"a line is answered {told}" for status, told in answers if status == 200 and told["outcome"] is not None]
