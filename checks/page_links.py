"""Links that hold a script, saved scripts, scripts with odd letters, and where the page is opened from."""
from __future__ import annotations

import base64
import functools
import http.server
import json
import pathlib
import threading
from collections.abc import Iterator

from known_scripts import EXAMPLES
from page_looks import MISPLACED
from page_opened import Opened

Cases = Iterator[tuple[str, list[str]]]
FRAGMENT = "location.hash"
ODD = {
    "markup": "keyspace <img src=x onerror=document.title='taken'>\n# </script><script>document.title='taken'</script>\nkeyspace a&amp;b\n'\"\n",
    "letters beyond ASCII": "# Grüße, 漢字, 🐘\nkeyspace ключ\nget 🐘 1\nkeyspace a\n",
    "controls": "keyspace a\x01\x07\ntable\ta\tt\n\x7f\u2028\u200b\n\xa0\nkeyspace a\n",
    "wide letters and tabs": "# " + "مرحبا " * 40 + "漢字" * 80 + "👨‍👩‍👧" * 40 + "a\u00ad\u00a0b " * 80 + "\ntable\t\t\tcommerce\tx" * 9 + "\n",
    "long words": "keyspace " + "a" * 5000 + "\n" + "#" * 5000 + "\n" + "get " * 2000 + "\nkeyspace " + "b" * 64 + "\n",
    "a move with odd names": "keyspace a-$\nkeyspace b_\nkeyspace -\nkeyspace forward\nkeyspace back\ntable forward t$-_\ncreate m forward back t$-_\nshow m\n",
    "names that are numbers": "keyspace 2\nkeyspace 1\ntable 2 9\ntable 2 8\ncreate 7 2 1 9\nadvance 7 forward 0 1\nget 9 1\nshow 7\n",
    "names that objects have": "keyspace a\nkeyspace constructor\ntable a __proto__\ntable a toString\ncreate m a constructor toString,__proto__\nget toString 1\n",
}
KEYSPACES = {"names that are numbers": ["2", "1"]}


def elements_of(page: Opened) -> list[str]:
    """What of a script became markup."""
    return list(page.tab.value("[...document.querySelectorAll('main img, main script, [onerror]')].map((it) => it.outerHTML)"))


def odd_scripts(page: Opened) -> Cases:
    """Scripts with markup, with letters that aren't ASCII, with names of an odd form."""
    page.open()
    title = page.tab.value("document.title")
    for name, text in ODD.items():
        page.take(text, KEYSPACES.get(name, []))
        found = page.differences(page.read(text, KEYSPACES.get(name, [])))
        found += [f"became markup: {it}" for it in elements_of(page)] + ["it ran"] * (page.tab.value("document.title") != title)
        found += page.tab.value(MISPLACED)
        yield f"a script with {name}", found


def shared(page: Opened) -> str:
    """The link's part of the address, behind the button."""
    page.click("share")
    page.tab.until("document.getElementById('said').textContent")
    return str(page.tab.value(FRAGMENT))


def links(page: Opened) -> Cases:
    """Links that are opened anew: the same script, with the same lines run."""
    texts = {**ODD, "everything of an example": (EXAMPLES / "two_shards.script").read_text(), "nothing": "", "2,000 lines": "keyspace a\n" * 2000}
    for name, text in texts.items():
        page.open()
        page.take(text, ["a", "b"])
        for _ in range(2):
            page.click("back")
        before, fragment = page.seen(), shared(page)
        page.open(fragment)
        after = page.seen()
        found = [f"{it}: {after[it]!r:.100}, wanted {before[it]!r:.100}" for it in ("script", "told", "facts", "count") if after[it] != before[it]]
        watched = page.tab.value("document.getElementById('watched').value")
        yield f"a link with {name}", found + [f"watches {watched}"] * (watched != "a b")
    page.tab.value(f"location.hash = {json.dumps(fragment.replace('at=1998', 'at=7'))}")
    page.wait("document.getElementById('count').textContent.startsWith('7 of')")
    yield "a link in the tab that is open", []


def encoded(data: bytes) -> str:
    return base64.urlsafe_b64encode(data).decode().rstrip("=")


def spoilt_links(page: Opened) -> Cases:
    """Links that are cut or changed: it is told, and an example stands there."""
    page.open()
    whole = shared(page)
    at, sum_at = whole.index("script=") + 7, whole.index("&sum=")
    changed = {
        "cut in the script": whole[: at + 100],
        "cut in the sum": whole[: sum_at + 9],
        "without a sum": whole[:sum_at],
        "a letter that is another": whole[: at + 50] + ("A" if whole[at + 50] != "A" else "B") + whole[at + 51 :],
        "letters that aren't of it": whole[: at + 50] + "%25%20*" + whole[at + 50 :],
        "another script": f"#script={encoded(b'keyspace a')}" + whole[sum_at:],
        "bytes that aren't text": f"#script={encoded(bytes([0xff, 0xfe]))}&sum=00000000",
        "nothing in it": "#script=",
    }
    for name, fragment in changed.items():
        page.open(fragment)
        seen = page.seen()
        is_told = "spoilt" in seen["said"] and seen["script"] == (EXAMPLES / "two_shards.script").read_text() and bool(seen["facts"])
        yield f"a spoilt link: {name}", [] if is_told else [f"{seen['said']}, {seen['script'][:80]}"]
    for name, fragment in {"another fragment": "#lines", "a bad count": whole + "&at=-3", "a count that is too high": whole + "&at=9999999"}.items():
        page.open(fragment)
        seen = page.seen()
        yield f"a link with {name}", [] if seen["count"].startswith("45 of 45") and "spoilt" not in seen["said"] else [seen["said"], seen["count"]]


def saved(page: Opened) -> Cases:
    """A script that is saved as a file."""
    page.open()
    folder = page.folder / "saved"
    folder.mkdir(exist_ok=True)
    page.tab.browser.call("Browser.setDownloadBehavior", behavior="allow", downloadPath=str(folder), eventsEnabled=True)
    for name, text in {"two_shards": (EXAMPLES / "two_shards.script").read_text(), "no_move": ODD["letters beyond ASCII"]}.items():
        page.take(text)
        page.tab.browser.told.clear()
        page.click("save")
        told = page.tab.browser.told
        while not any(it.get("method") == "Browser.downloadProgress" and it["params"]["state"] == "completed" for it in told):
            told.append(page.tab.browser.message())
        files = [it.read_text() for it in folder.iterdir()]
        for it in folder.iterdir():
            it.unlink()
        yield f"saved: {name}", [] if files == [text] else [f"{files!r:.200}"]


class Quiet(http.server.SimpleHTTPRequestHandler):
    """A server of files that prints nothing."""

    def log_message(self, *_: object) -> None:
        return


def from_a_server(page: Opened) -> Cases:
    """The page from a static server, and what it asks of the network: itself alone."""
    handler = functools.partial(Quiet, directory=str(page.path.parent))
    with http.server.ThreadingHTTPServer(("127.0.0.1", 0), handler) as server:
        threading.Thread(target=server.serve_forever, daemon=True).start()
        address = f"http://127.0.0.1:{server.server_address[1]}/{page.path.name}"
        page.open(address=address)
        page.set("example", "whole_move", "change")
        yield "from a server", page.differences(page.read((EXAMPLES / "whole_move.script").read_text()))
        asked = [it["params"]["request"]["url"] for it in page.tab.browser.told if it.get("method") == "Network.requestWillBeSent"]
        others = [it for it in asked if pathlib.PurePosixPath(it).name not in (page.path.name, "favicon.ico") and not it.startswith(("data:", "blob:"))]
        yield "what is asked of the network", [f"asks for {it[:200]}" for it in others] + ["not even the page"] * (address not in asked)
        server.shutdown()
