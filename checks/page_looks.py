"""How the page looks, wide and narrow, light and dark; and in browsers that can't run the controller."""
from __future__ import annotations

import pathlib
from collections.abc import Iterator

from known_scripts import EXAMPLES
from page_opened import Opened, opened

Cases = Iterator[tuple[str, list[str]]]
WIDTHS = (1280, 390)
SCHEMES = ("light", "dark")
LEAST_CONTRAST, LEAST_TYPE = 4.5, 9
# Text whose colour doesn't stand out from what is below it, or whose type is tiny. In the drawing what is below is the mark that its words lie in.
UNREADABLE = """((leastContrast, leastType) => {
  const parts = (colour) => (/rgba?\\(([^)]*)\\)/.exec(colour)?.[1] ?? "0,0,0,0").split(/[ ,/]+/).map(Number);
  const light = (rgb) => rgb.slice(0, 3).map((it) => it / 255).map((it) => (it <= 0.03928 ? it / 12.92 : ((it + 0.055) / 1.055) ** 2.4))
    .reduce((sum, it, at) => sum + it * [0.2126, 0.7152, 0.0722][at], 0);
  const over = (top, below) => { const share = top[3] ?? 1; return [0, 1, 2].map((at) => top[at] * share + below[at] * (1 - share)); };
  const page = parts(getComputedStyle(document.body).backgroundColor);
  const ground = (it) => {
    if (!it) return page;
    const own = parts(getComputedStyle(it).backgroundColor);
    return own[3] === 0 ? ground(it.parentElement) : over(own, ground(it.parentElement));
  };
  const drawnGround = (text) => {
    const box = text.getBoundingClientRect(), [x, y] = [box.left + box.width / 2, box.top + box.height / 2];
    let below = page;
    for (const mark of document.querySelectorAll("#picture svg rect:not(.column)")) {
      if (mark.closest("defs")) continue;
      if (mark.compareDocumentPosition(text) & Node.DOCUMENT_POSITION_PRECEDING) break;
      const at = mark.getBoundingClientRect(), style = getComputedStyle(mark);
      if (at.left > x || at.right < x || at.top > y || at.bottom < y || style.fill.startsWith("url")) continue;
      const fill = parts(style.fill);
      below = over([...fill.slice(0, 3), (fill[3] ?? 1) * Number(style.fillOpacity)], below);
    }
    return below;
  };
  const contrast = (one, other) => { const [a, b] = [light(one), light(other)].sort((x, y) => y - x); return (a + 0.05) / (b + 0.05); };
  const found = [];
  const judge = (it, colour, below, text) => {
    const size = parseFloat(getComputedStyle(it).fontSize), seen = contrast(over(colour, below), below);
    if (seen < leastContrast) found.push(`${text.slice(0, 30)} has a contrast of ${seen.toFixed(2)}`);
    if (size < leastType) found.push(`${text.slice(0, 30)} is ${size} pixels high`);
  };
  const walker = document.createTreeWalker(document.body, NodeFilter.SHOW_TEXT);
  while (walker.nextNode()) {
    const it = walker.currentNode.parentElement, text = walker.currentNode.textContent.trim();
    if (!text || text === "\\u200b" || !it.checkVisibility() || it.closest("script, style, svg, textarea, option") || it.matches(":disabled")) continue;
    const [colour, opacity] = [parts(getComputedStyle(it).color), Number(getComputedStyle(it).opacity)];
    judge(it, [...colour.slice(0, 3), (colour[3] ?? 1) * opacity], ground(it), text);
  }
  for (const text of document.querySelectorAll("#picture svg text")) {
    const spans = text.querySelectorAll("tspan");
    const isSeen = getComputedStyle(text).visibility === "visible";
    const own = [...(spans.length ? spans : [text])].filter((it) => isSeen && !["■", ""].includes(it.textContent));
    for (const it of own) judge(it, parts(getComputedStyle(it).fill), drawnGround(text), it.textContent);
  }
  return [...new Set(found)];
})"""
# Where the field's lines don't stand at the rows that show them; and what is cut off at the side.
MISPLACED = """(() => {
  const [field, rows] = ["script", "rows"].map((it) => document.getElementById(it));
  const found = [];
  if (Math.abs(field.scrollHeight - Math.max(rows.offsetHeight, field.clientHeight)) > 1) found.push(`the field is ${field.scrollHeight} high, its rows ${rows.offsetHeight}`);
  const line = rows.querySelector(".line");
  const [one, other] = [field, line].map((it) => it && getComputedStyle(it));
  for (const name of ["fontFamily", "fontSize", "lineHeight", "paddingLeft", "paddingRight", "width", "whiteSpace", "overflowWrap", "tabSize"])
    if (line && one[name] !== other[name]) found.push(`${name}: ${one[name]} of the field, ${other[name]} of its rows`);
  if (line && Math.abs(field.getBoundingClientRect().left - line.getBoundingClientRect().left) > 0.5) found.push("the field stands beside its rows");
  if (line && Math.abs(field.getBoundingClientRect().top - line.getBoundingClientRect().top) > 0.5) found.push("the field stands above its rows, or below");
  if (document.documentElement.scrollWidth > innerWidth) found.push(`the page is ${document.documentElement.scrollWidth} wide, in a window of ${innerWidth}`);
  for (const it of document.querySelectorAll("header *, main .bar *, #line, footer *"))
    if (it.checkVisibility() && (it.getBoundingClientRect().right > innerWidth + 0.5 || it.scrollWidth > it.clientWidth + 1 && !it.matches("input, select, option, kbd, span, code, label")))
      found.push(`${it.tagName} ${it.id} is cut off`);
  return found;
})()"""
SHOTS = [("two_shards", None), ("two_shards", 24), ("two_shards", 3), ("give_up_a_switch", None), ("two_moves", None), ("documents", None), ("first_table", None)]


def places() -> Iterator[tuple[int, str]]:
    return ((width, scheme) for width in WIDTHS for scheme in SCHEMES)


def readable(page: Opened) -> Cases:
    """Each example, wide and narrow, light and dark."""
    for width, scheme in places():
        page.tab.screen(width, 800, scheme)
        page.open()
        page.tab.value("document.querySelector('details').open = true")
        for path in sorted(EXAMPLES.glob("*.script")):
            page.set("example", path.stem, "change")
            page.click("back")
            page.wait()
            found = page.tab.value(MISPLACED) + page.tab.value(f"{UNREADABLE}({LEAST_CONTRAST}, {LEAST_TYPE})")
            yield f"{path.stem}, {width} pixels wide, {scheme}", found
    page.tab.screen(1280, 800, "light")


def take_shots(page: Opened, folder: pathlib.Path) -> None:
    """Pictures of the screen, to be looked at."""
    folder.mkdir(parents=True, exist_ok=True)
    for width, scheme in places():
        page.tab.screen(width, 800, scheme)
        for name, at in SHOTS:
            page.open()
            page.set("example", name, "change")
            if at is not None:
                page.set("position", str(at))
            page.wait()
            page.tab.shot(folder / f"{name}{'' if at is None else f'_{at}'}_{width}_{scheme}.png")


def without_memory64(path: pathlib.Path, folder: pathlib.Path) -> Cases:
    """Browsers that have no WebAssembly, or none with a 64-bit memory: it is told, and the script can be read."""
    hidden = {
        "without WebAssembly": "delete globalThis.WebAssembly",
        "without a 64-bit memory": "WebAssembly.instantiate = async () => { throw new WebAssembly.CompileError('invalid memory limits flags 0x4') }",
    }
    for name, script in hidden.items():
        with opened(path, path, folder) as page:
            page.tab.call("Page.addScriptToEvaluateOnNewDocument", source=script)
            yield f"a browser {name}", disabled(page)


# Another module: the page's own, with this in its exports.
OTHER_MODULE = """const whole = WebAssembly.instantiate;
WebAssembly.instantiate = async (...words) => ({{ instance: {{ exports: {{ ...(await whole(...words)).instance.exports, {export} }} }} }});"""
STOPS = "mt_run: () => { throw new WebAssembly.RuntimeError('unreachable'); }"


def other_modules(path: pathlib.Path, folder: pathlib.Path) -> Cases:
    """A controller that stops in the middle of a run, and one that tells its version."""
    with opened(path, path, folder) as page:
        page.tab.call("Page.addScriptToEvaluateOnNewDocument", source=OTHER_MODULE.format(export=STOPS))
        yield "a controller that stops", disabled(page, "problem", "stopped in the middle (unreachable)")
    with opened(path, path, folder) as page:
        page.tab.call("Page.addScriptToEvaluateOnNewDocument", source=OTHER_MODULE.format(export="mt_version: () => 1002030"))
        page.open()
        told = page.tab.value("document.getElementById('version').textContent")
        yield "a controller that tells its version", [] if told == " Version 1.2.30." else [told]


def disabled(page: Opened, where: str = "unable", wanted: str = "64-bit memory") -> list[str]:
    """What is wrong with the page where it can't run the controller."""
    page.open()
    seen = page.seen()
    told = page.tab.value(f"document.getElementById('{where}').checkVisibility() ? document.getElementById('{where}').textContent : ''")
    open_controls = page.tab.value("['all', 'on', 'back', 'position'].filter((it) => !document.getElementById(it).disabled)")
    found = ["isn't told"] * (wanted not in told) + [f"{it} can be pressed" for it in open_controls]
    found += ["something is answered"] * bool(seen["told"] or seen["facts"]) + ["there is no script"] * (not seen["script"])
    found += ["the script isn't seen"] * (not page.tab.value("document.querySelectorAll('#rows .line').length"))
    page.tab.press("Enter", "Enter", 13, 2)
    page.tab.press(".", "Period", 190, 1)
    return found + ["something is answered behind a key"] * bool(page.seen()["told"])
