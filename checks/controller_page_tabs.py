"""A controller's page in tabs of Chromium: what is done in one, and what is seen there and in others."""
from __future__ import annotations

import json
import pathlib
import signal
from typing import Any

from browser import Browser
from controller_page_served import Cases, Place, Serving
from mt_runs.program import Program
from mt_runs.refusals import read_script_page
from page_looks import LEAST_CONTRAST, LEAST_TYPE, SCHEMES, UNREADABLE, WIDTHS

SCRIPT_PAGE = read_script_page()
MOST_TURNS = 12  # a page asks three times a second, or once if there is no answer; none waits for a line, a picture or a word so long
# Counts how often a page asked how its controller stands, and was answered or not.
COUNTED = """{ const whole = window.fetch; window.turns = 0;
window.fetch = async (...words) => { try { return await whole(...words); } finally { if (words[0] === "state") window.turns += 1; } }; }"""
# Waits until something is so, and gives up once the page has asked so often.
IN_TURNS = """(async (isSo, most) => {
  for (const first = window.turns; !isSo() && window.turns < first + most;) await new Promise((next) => setTimeout(next, 5));
  return isSo();
})"""
SEEN = """(() => {
  const text = (name) => document.getElementById(name).innerText;
  const row = (it) => [it.querySelector("button").textContent, it.querySelector(".answer").textContent];
  const rows = [...document.querySelectorAll("#lines li")].map(row);
  return { rows, status: text("status"), kind: document.getElementById("status").className, log: text("log"), line: text("line"), words: text("words"),
    facts: document.getElementById("facts").textContent, columns: document.querySelectorAll("#picture .column").length };
})()"""
ROWS = "document.querySelectorAll('#lines li').length"
PICTURED = "(JSON.parse(document.getElementById('facts').textContent || '{}').columns ?? []).map((it) => it.last).pop()"
IS_MARKED = "[...document.querySelectorAll('main img, main script, main b')].map((it) => it.outerHTML)"
CUT_OFF = """(() => {
  const found = [], isCut = (it) => it.scrollWidth > it.clientWidth + 1 && !it.matches("input, kbd, span, code, samp, label, br");
  if (document.documentElement.scrollWidth > innerWidth) found.push(`the page is ${document.documentElement.scrollWidth} wide, in a window of ${innerWidth}`);
  for (const it of document.querySelectorAll("header *, #ask *, #line *, #words, #head > *, #meanings *, footer *"))
    if (it.checkVisibility() && (it.getBoundingClientRect().right > innerWidth + 0.5 || isCut(it)))
      found.push(`${it.tagName} ${it.id} is cut off`);
  return found;
})()"""
SET_UP = ["keyspace commerce", "keyspace customer", "table commerce corder", "insert corder 1 a", "create mv commerce customer corder"]
# A move by steps as it is typed, and as it stands in the log.
TYPED = [*SET_UP, "advance mv", "begin-switch mv all", "step mv", "step mv", "append corder 1 x", "step mv 2", "advance mv forward", "undo mv", "undo mv 1"]
LOGGED = [*SET_UP, "advance mv forward 1 100", "begin-switch mv all", "step mv 0", "step mv 1", "append corder 1 x", "step mv 2", "advance mv forward 1 100"]
LOGGED += ["undo mv 3", "undo mv 1"]
MARKUP = "keyspace <img src=x onerror=document.title='taken'><b>&amp;</b>"


class Looked:
    """A tab with the page of a controller."""

    def __init__(self, browser: Browser, served: Serving, fragment: str = "") -> None:
        self.tab, self.served = browser.tab(), served
        for domain in ("Network", "Log"):
            self.tab.call(f"{domain}.enable")
        self.tab.call("Page.addScriptToEvaluateOnNewDocument", source=COUNTED)
        self.tab.screen(1280, 800, "light")
        self.told: list[dict[str, Any]] = []
        self.open(fragment)

    def open(self, fragment: str = "") -> None:
        """Opens the page anew, and waits until it was answered."""
        self.told += self.tab.browser.told
        self.tab.goto("about:blank")
        self.tab.goto(self.served.url + fragment)
        self.tab.until("document.getElementById('status').className !== 'begins'")

    def type(self, line: str) -> None:
        """Types a line, and sends it."""
        self.tab.value("document.getElementById('field').focus()")
        self.tab.call("Input.insertText", text=line)
        self.tab.press("Enter", "Enter", 13, text="\r")

    def sent(self, line: str) -> str:
        """Types a line, sends it, and gives what is told of it once it is answered."""
        self.type(line)
        self.tab.until("document.getElementById('line').textContent && !document.getElementById('line').textContent.includes('waits for its answer')")
        return str(self.seen()["line"])

    def sees(self, expression: str, most: int = MOST_TURNS) -> bool:
        """Whether something is so by the time that the page has asked so often."""
        return bool(self.tab.value(f"{IN_TURNS}(() => {expression}, {most})"))

    def tells(self, name: str, *texts: str) -> list[str]:
        """What an element of the page lacks of some texts, by the time that it has asked so often."""
        wanted = " && ".join(f"document.getElementById({json.dumps(name)}).innerText.includes({json.dumps(it)})" for it in texts)
        return [] if self.sees(wanted) else [f"{name} tells {self.seen()[name]}, wanted {texts}"]

    def seen(self) -> dict[str, Any]:
        found: dict[str, Any] = self.tab.value(SEEN)
        return found

    def unreadable(self) -> list[str]:
        """What is cut off, and what doesn't stand out."""
        return list(self.tab.value(CUT_OFF) + self.tab.value(f"{UNREADABLE}({LEAST_CONTRAST}, {LEAST_TYPE})"))

    def asked(self) -> list[str]:
        """What was asked of others than the page's own server."""
        self.told += self.tab.browser.told
        mine = [it for it in self.told if it.get("sessionId") == self.tab.session]
        urls = [it["params"]["request"]["url"] for it in mine if it.get("method") == "Network.requestWillBeSent"]
        return [it for it in urls if not it.startswith((self.served.url, "data:", "about:"))] + ["nothing was asked"] * (not urls)

    def thrown(self) -> list[str]:
        """What the page threw, or the browser complained of; that a server isn't there is no fault of the page."""
        self.told += self.tab.browser.told
        mine = [it for it in self.told if it.get("sessionId") == self.tab.session]
        errors = [json.dumps(it["params"])[:300] for it in mine if it.get("method") in ("Runtime.exceptionThrown", "Runtime.consoleAPICalled")]
        entries = [it["params"]["entry"] for it in mine if it.get("method") == "Log.entryAdded"]
        return errors + [f"{it['source']}: {it['text'][:300]}" for it in entries if it["source"] != "network"]


def answers_of(place: Place, lines: list[str]) -> list[list[str]]:
    """Lines with their answers by the program."""
    return [list(pair) for pair in zip(lines, Program(place.program, ["commerce", "customer"]).answers(lines))]


def steps(place: Place, browser: Browser) -> Cases:
    """A move by steps that is typed in one tab, and seen in another; then a reload, and another controller."""
    with place.serving() as served:
        one, other = Looked(browser, served), Looked(browser, served)
        yield "before the first line", ["no word that no move stands"] * (not other.sees("document.getElementById('words').textContent.startsWith('No move')"))
        for number, line in enumerate(TYPED, 1):
            one.sent(line)
            late = [f"line {number} isn't seen there"] * (not other.sees(f"{ROWS} === {number}"))
            late += [f"line {number} isn't drawn there"] * (number >= len(SET_UP) and not other.sees(f"{PICTURED} === {number}"))
            yield f"{line} in another tab", late
        wanted = answers_of(place, LOGGED)
        one.sees(f"{ROWS} === {len(wanted)}")
        yield "the lines in each tab", [f"{it.seen()['rows']}, wanted {wanted}" for it in (one, other) if it.seen()["rows"] != wanted]
        drawn = one.seen()
        yield "the picture", [f"{drawn['columns']} columns"] * (drawn["columns"] != len(json.loads(drawn["facts"])["columns"]))
        about = f"Log {served.log}, watches commerce customer; {len(wanted)} lines"
        yield "what the page says of its log", [it.seen()["log"] for it in (one, other) if it.seen()["log"] != about]
        other.open()
        yield "a reload", ["shows others"] * (not other.sees(f"{ROWS} === {len(wanted)} && {PICTURED} === {len(wanted)}") or other.seen()["rows"] != wanted)
        place.batch(served.log, ["insert corder 7 z", "show mv"])
        wanted = answers_of(place, [*LOGGED, "insert corder 7 z", "show mv"])
        found = [f"{it.seen()['rows'][-2:]}" for it in (one, other) if not it.sees(f"{PICTURED} === {len(wanted)}") or it.seen()["rows"] != wanted]
        yield "another controller's lines", found
        yield "nothing is thrown", [it for tab in (one, other) for it in tab.thrown()]
        yield "nothing else is asked", [it for tab in (one, other) for it in tab.asked()]


def refusals(place: Place, browser: Browser) -> Cases:
    """What is told of lines that are refused, and of those that aren't taken."""
    with place.serving() as served:
        page = Looked(browser, served)
        wanted = {"create mv a b c": "F1 NoKeyspace", "step mv": "F7 NoWorkflow", "switch": "X1 BadLine", "get corder 1": "T2 NoTable"}
        for line, name in wanted.items():
            told, refusal = page.sent(line), SCRIPT_PAGE.refusals[name]
            parts = [f"refused {name}", *(it.replace("`", "") for it in (refusal.when, refusal.what_to_do))]
            yield f"a refusal of {line}", [f"{it[:80]} isn't told: {told[:200]}" for it in parts if it not in told]
        told = page.sent("hello")
        yield "a line that there isn't", [told] * ("there is no line that begins with 'hello'" not in told)
        told = page.sent("switch")
        yield "the form of a line", [told] * ("switch W TYPES" not in told)
        before = served.state()["applied"]
        page.type("# nothing")
        yield "a comment", page.tells("line", "that is no line")
        page.tab.value("""(() => { const data = new DataTransfer(); data.setData("text", "keyspace a\\nkeyspace b");
          document.getElementById("field").dispatchEvent(new ClipboardEvent("paste", { clipboardData: data, cancelable: true })); })()""")
        yield "a paste of several lines", page.tells("line", "Several lines aren't taken at once")
        yield "nothing of these is in the log", ["more lines"] * (served.state()["applied"] != before)
        page.tab.until(f"{ROWS} === {before}")
        page.tab.value("document.querySelector('#lines li:nth-child(2) button').click()")
        told = page.seen()["line"]
        yield "a line that is chosen", [told] * (not told.startswith("Line 2 step mv 0") or SCRIPT_PAGE.refusals["F7 NoWorkflow"].when not in told)
        told = page.sent("get corder " + "1" * 5000)
        yield "a line that is too long", [told[:200]] * ("refused X2 LineTooLong" not in told)
        told = page.sent("get corder " + "1" * 30000)
        yield "a body that is too long", [told[-200:]] * ("a body has" not in told)
        yield "nothing is thrown by refusals", page.thrown()


def markup(place: Place, browser: Browser) -> Cases:
    """Markup in lines stays text: in the list, in what is told, in the picture."""
    with place.serving() as served:
        page, other = Looked(browser, served), Looked(browser, served)
        for line in SET_UP:
            served.take(line)
        told = page.sent(MARKUP)
        yield "markup in what is told", [told] * (MARKUP not in told)
        lines = len(SET_UP) + 1
        found = ["isn't seen"] * (not other.sees(f"{PICTURED} === {lines}") or not page.sees(f"{PICTURED} === {lines}"))
        found += [f"became markup: {it}" for tab in (page, other) for it in tab.tab.value(IS_MARKED)]
        found += ["it ran"] * any(tab.tab.value("document.title") == "taken" for tab in (page, other))
        yield "markup in lines and picture", found + [str(other.seen()["rows"][-1])] * (other.seen()["rows"][-1][0] != MARKUP)


def lost(place: Place, browser: Browser) -> Cases:
    """A controller that is killed, stopped, ended and started again, each told in the page."""
    with place.serving() as served:
        page = Looked(browser, served)
        for line in [*SET_UP, "advance mv"]:
            page.sent(line)
        page.tab.until(f"{ROWS} === {len(SET_UP) + 1}")
        rows = page.seen()["rows"]
        served.kill()
        yield "killed", page.tells("status", "can't be reached since") + ["other lines"] * (page.seen()["rows"] != rows)
        page.type("insert corder 2 b")
        yield "a line to one that is killed", page.tells("line", "insert corder 2 b waits for its answer")
        served.start()
        yield "started again", page.tells("status", "Connected") + page.tells("line", "started anew") + ["other lines"] * (page.seen()["rows"] != rows)
        told = page.sent("insert corder 3 c")
        yield "a line behind that", [told] * (not told.endswith("ok"))
        served.process.send_signal(signal.SIGSTOP)
        found = page.tells("status", "can't be reached since")
        served.process.send_signal(signal.SIGCONT)
        yield "stopped for a while", found + page.tells("status", "Connected")
        for number in (signal.SIGTERM, signal.SIGINT):
            status, said = served.told(number)
            found = [f"status {status}"] * (status != 128 + number) + [said] * bool(said)
            yield f"ended by {number.name}", found + page.tells("status", f"has ended: it was ended by {number.name}")
            served.start()
            yield f"started again behind {number.name}", page.tells("status", "Connected")
        yield "nothing is thrown on the way", page.thrown()


def tokens(place: Place, browser: Browser) -> Cases:
    """A token that the page was opened with, that is typed, that is another, and that is missing."""
    token = "an-odd+token/of=letters?"
    (place.folder / "token").write_text(f"{token}\nmore\n")
    with place.serving("--token", str(place.folder / "token")) as served:
        page = Looked(browser, served)
        is_asked = "document.getElementById('entrance').checkVisibility()"
        yield "without a token", [page.seen()["status"]] * (not page.tab.value(is_asked) or "token is missing" not in page.seen()["status"])
        for typed, name in (("something-else-that-is-long", "wrong"), (token, "well")):
            page.tab.value(f"document.getElementById('token').value = {json.dumps(typed)}; document.querySelector('#entrance button').click()")
            page.tab.until(f"document.getElementById('status').className === '{name}'")
            yield f"a token that is typed: {name}", [page.seen()["status"]] * (page.tab.value(is_asked) != (name == "wrong"))
        told = page.sent("keyspace commerce")
        yield "a line with a token", [told] * (not told.endswith("ok"))
        page.tab.call("Page.reload")
        page.tab.until(f"document.readyState === 'complete' && {ROWS} === 1")
        other = Looked(browser, served, "#token=an-odd%2Btoken%2Fof%3Dletters%3F")
        other.tab.until(f"{ROWS} === 1")
        address = other.tab.value("location.href")
        yield "a token in the address", [address] * (address != served.url) + ["it is asked for"] * bool(other.tab.value(is_asked))


def readable(place: Place, browser: Browser) -> Cases:
    """The page wide and narrow, light and dark: nothing is cut off, and words stand out."""
    with place.serving() as served:
        page = Looked(browser, served)
        for line in [*TYPED, "create mv2 customer commerce corder", MARKUP, "get corder " + "1" * 300, "dump"]:
            page.sent(line)
        page.sent("switch mv all")
        page.tab.value("document.querySelector('details').open = true")
        for width, scheme in ((width, scheme) for width in WIDTHS for scheme in SCHEMES):
            page.tab.screen(width, 800, scheme)
            page.sees("false", 2)
            yield f"{width} pixels wide, {scheme}", page.unreadable()
        served.kill()
        yield "a controller that is lost, by its look", page.tells("status", "can't be reached since") + page.unreadable()


def take_shots(place: Place, browser: Browser, folder: pathlib.Path) -> None:
    """Pictures of the screen, to be looked at."""
    folder.mkdir(parents=True, exist_ok=True)
    with place.serving() as served:
        page = Looked(browser, served)
        page.tells("words", "No move")
        page.tab.shot(folder / "begins.png")
        for number, line in enumerate([*TYPED, "switch mv all"], 1):
            page.sent(line)
            page.sees(f"{ROWS} === {number} && {PICTURED} === {number}", 3)
        for width, scheme in ((width, scheme) for width in WIDTHS for scheme in SCHEMES):
            page.tab.screen(width, 800, scheme)
            page.sees("false", 2)
            page.tab.shot(folder / f"steps_{width}_{scheme}.png")
        served.kill()
        page.tells("status", "can't be reached since")
        page.tab.screen(1280, 800, "light")
        page.tab.shot(folder / "lost.png")
