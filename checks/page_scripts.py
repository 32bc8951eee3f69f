"""Scripts in the page beside the program and tools/picture: their answers and the facts of their pictures, on the way and by keys alone."""
from __future__ import annotations

from collections.abc import Iterator

import pictured
from known_scripts import EXAMPLES, words_of
from mt_picture.script import Script
from page_opened import ALT, CTRL, SCRIPT_PAGE, SHIFT, Opened

Cases = Iterator[tuple[str, list[str]]]
RANDOM, LENGTH, LONGER = 40, 7, 110
NAMES = sorted(it.stem for it in EXAMPLES.glob("*.script"))
THERE_AND_BACK = """keyspace commerce
keyspace customer
table commerce corder
insert corder 1 a
create mv commerce customer corder
advance mv forward 1 100
switch mv all
insert corder 2 b
advance mv back 1 100
reverse mv all
get corder 2
show mv"""
SELECTED = "document.activeElement?.id"


def text_of(name: str) -> str:
    return (EXAMPLES / f"{name}.script").read_text()


def examples(page: Opened) -> Cases:
    """Each script of examples/, chosen in the list, and its output."""
    page.open()
    offered = page.tab.value("[...document.querySelectorAll('#example option')].map((it) => it.value).filter((it) => it)")
    yield "the list of examples", [] if offered == NAMES else [str(offered)]
    for name in NAMES:
        page.set("example", name, "change")
        script = page.read(text_of(name))
        found = page.differences(script)
        told = "".join(f"{answer}\n" for _, answer in page.seen()["told"])
        found += ["isn't answered as its output has it"] * (told != (EXAMPLES / f"{name}.output").read_text())
        found += [f"is run with {script.watchers}"] * (script.watchers != tuple(words_of(name)) and "mt run" in text_of(name))
        yield f"examples/{name}", found


def beginning(script: Script, count: int) -> Script:
    """The first lines of a script."""
    notes = {place: note for place, note in script.notes.items() if place < count}
    return Script(script.lines[:count], notes, script.title, script.watchers)


def growing(page: Opened) -> Cases:
    """A script line by line, back and on again: behind each line there are just the facts of the lines up to it."""
    page.open()
    for name, steps in (("two_shards", (1, -1)), ("give_up_a_switch", (-1, 1)), ("two_moves", (-1, 1))):
        script, found = page.read(text_of(name)), []
        page.set("example", name, "change")
        if steps[0] == 1:
            page.set("position", "0")
        for by in steps:
            for count in range(len(script.lines)) if by == 1 else reversed(range(len(script.lines))):
                page.click("on" if by == 1 else "back")
                now = count + 1 if by == 1 else count
                found += page.differences(beginning(script, now), f"{now} lines: ")
                found += [f"{now} lines: it says {page.seen()['count']}"] * (not page.seen()["count"].startswith(f"{now} of {len(script.lines)} "))
        yield f"examples/{name}, line by line", found


def random_scripts(page: Opened) -> Cases:
    """Random scripts, some of them long, with lines that are refused in each way."""
    page.open()
    for seed in range(RANDOM):
        told = pictured.RandomScript(seed, LENGTH if seed % 20 else LONGER)
        text = "".join(f"{line}\n" for line in told.lines)
        page.take(text, told.watchers)
        yield f"random script {seed}", page.differences(page.read(text, told.watchers))


def edits(page: Opened) -> Cases:
    """A script that is edited at its end, in the middle, at its beginning, and in what is watched: nothing of before is left."""
    page.open()
    text = text_of("switch_by_steps")
    page.take(text)
    changes = [
        ("a line more", text + "get corder 7\n"),
        ("a line in the middle", text.replace("step mv 3\n", "step mv 3\ninsert corder 9 z\n")),
        ("a line less", text.replace("step mv 2\n", "")),
        ("another row at the beginning", text.replace("insert corder 1 a\n", "insert corder 1 a\ninsert corder 5 a\n")),
        ("no move", text.replace("create ", "# create ")),
        ("as it was", text),
        ("nothing", ""),
        ("a last line without a line feed", text.rstrip("\n")),
    ]
    for name, changed in changes:
        page.set("script", changed)
        yield f"edited: {name}", page.differences(page.read(changed))
    page.set("watched", "commerce")
    own = page.read(text.rstrip("\n"), ["commerce"])
    yield "edited: what is watched", page.differences(own)
    page.set("example", "documents", "change")
    yield "an example in its place", page.differences(page.read(text_of("documents")))
    page.set("example", "", "change")
    yield "the script that was typed, again", page.differences(own)


def refusals(page: Opened) -> Cases:
    """What is told of each line that is refused, at the caret."""
    page.open()
    for name in NAMES:
        page.set("example", name, "change")
        found = []
        for row, line in enumerate(text_of(name).split("\n")):
            at = sum(len(it) + 1 for it in text_of(name).split("\n")[:row])
            answer = page.tab.value(f"document.querySelectorAll('#rows li')[{row}].querySelector('.answer')?.textContent ?? ''")
            page.tab.value(f"document.getElementById('script').focus(); document.getElementById('script').setSelectionRange({at}, {at})")
            page.tab.until(f"document.getElementById('line').textContent.startsWith('Line {row + 1} ')")
            told, refusal = page.seen()["line"], SCRIPT_PAGE.refusal_of(answer)
            wanted = [line.strip() if answer else "", answer, *([refusal.when.replace("`", ""), refusal.what_to_do.replace("`", "")] if refusal else [])]
            found += [f"line {row + 1}: {told}" for it in wanted if it not in told]
        yield f"examples/{name}, told line by line", found


# ---- by keys alone


def type_text(page: Opened, text: str) -> None:
    """Types a text, key by key."""
    for sign in text:
        page.tab.press(*(("Enter", "Enter", 13, 0, "\r") if sign == "\n" else (sign, "", 0, 0, sign)))


def tab_to(page: Opened, name: str, shift: int = 0) -> list[str]:
    """Presses Tab until an element has the focus, and gives those on the way; all of them, if it comes around."""
    passed: list[str] = []
    while page.tab.value(SELECTED) != name and len(passed) < 40:
        page.tab.press("Tab", "Tab", 9, shift)
        passed.append(page.tab.value(SELECTED))
    return passed


def by_keys(page: Opened) -> Cases:
    """A move there and back without a pointer."""
    page.open()
    script = page.read(THERE_AND_BACK)
    passed = tab_to(page, "script")
    wanted = ["example", "watched", "all", "back", "position", "share", "save", "script"]
    yield "Tab goes from one control to the next", [] if passed == wanted else [str(passed)]
    page.tab.press("a", "KeyA", 65, CTRL, commands=["selectAll"])
    type_text(page, THERE_AND_BACK)
    yield "a script that is typed", page.differences(script)
    for _ in range(3):
        page.tab.press(",", "Comma", 188, ALT)
    yield "Alt , three times", page.differences(beginning(script, len(script.lines) - 3))
    page.tab.press(".", "Period", 190, ALT)
    yield "Alt .", page.differences(beginning(script, len(script.lines) - 2))
    tab_to(page, "back", SHIFT)
    page.tab.press("Enter", "Enter", 13, text="\r")
    yield "Enter at the button for one line back", page.differences(beginning(script, len(script.lines) - 3))
    tab_to(page, "on")
    page.tab.press(" ", "Space", 32, text=" ")
    yield "the space bar at the button for one line on", page.differences(beginning(script, len(script.lines) - 2))
    tab_to(page, "position", SHIFT)
    page.tab.press("Home", "Home", 36)
    yield "Home at the slider", page.differences(beginning(script, 0))
    page.tab.press("ArrowRight", "ArrowRight", 39)
    yield "an arrow at the slider", page.differences(beginning(script, 1))
    tab_to(page, "script")
    page.tab.press("Enter", "Enter", 13, CTRL)
    yield "Ctrl Enter in the script", page.differences(script)


# ---- what is too long, or no name


def told_as(page: Opened, wanted: str) -> list[str]:
    """What is wrong if a problem isn't told, or something is run all the same."""
    seen = page.seen()
    return [] if wanted in seen["problem"] and not seen["told"] and not seen["facts"] else [f"{seen['problem']}, {len(seen['told'])} answers"]


def limits(page: Opened) -> Cases:
    """Each limit of the page, and one past it."""
    page.open()
    move = "keyspace a\nkeyspace b\ntable a t\ncreate mv a b t\n"
    cases = [("2,000 lines", "#\n" * 1995 + move + "show mv\n"), ("a script of 1,000 lines that has 400 columns", move + "show mv\n" * 397 + "get t 1\n" * 599)]
    for name, text in cases:
        page.take(text)
        yield name, page.differences(page.read(text))
    page.take(move + "show mv\n" * 399)
    yield "401 columns", [] if "400 can be drawn" in page.seen()["picture"] and len(page.seen()["told"]) == 403 else [page.seen()["picture"]]
    page.take("#\n" * 2001)
    yield "2,001 lines", told_as(page, "2,001 lines, and this page runs 2,000 at most")
    page.take("#" * 1_048_576)
    yield "1,048,576 bytes", [page.seen()["problem"]] if page.seen()["problem"] else []
    page.take("#" * 1_048_577)
    yield "1,048,577 bytes", told_as(page, "1,048,577 bytes, and mt reads 1,048,576 at most")
    for watched in (["no/name"], ["k"] * 32):
        page.take(move, watched)
        yield f"watched: {watched[0]}", told_as(page, "a word is no keyspace's name")
    page.take(move)
    yield "behind all that", page.differences(page.read(move))
