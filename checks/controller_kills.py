"""Controllers that are killed at random moments, and started again on the same log."""
from __future__ import annotations

import random
import time
from collections.abc import Callable, Iterator, Sequence

from controller_runs import SETUP, Bench, Feed, LogAt, Marks, Running, differences, until, went_well

LINES = 10  # that a client sends between two kills
PLAYED = 1500  # lines that each start has to play
ENTRIES = 10  # that are measured


def killed_often(bench: Bench, log: LogAt, part: int, kills: int) -> list[str]:
    """A log whose controller is killed so many times while a client feeds it; then one goes on to the end."""
    drawn, marks = random.Random(f"{bench.seed} {part}"), Marks()
    first = Running(bench, log.words())
    first.send(*marks.all(*SETUP, *["get corder 1"] * PLAYED))
    if not first.wait(len(first.feed.sent)):
        return [f"not all is answered: {first.end()}"]
    found, feeds = went_well(first.end()), [first.feed]
    opening, entry, second = paced(bench, log, marks)
    feeds.append(second)
    for _ in range(kills):
        feed, odd = killed_once(bench, log, drawn, marks, (opening, entry))
        feeds.append(feed)
        found += odd
    last = Running(bench, log.words(), watched=())
    last.send(*marks.all("show mv", "get corder 1"))
    found += went_well(last.end())
    tell_moments(bench, log, feeds[2:])
    return found + differences(bench, log, [*feeds, last.feed])


def killed_as_it_begins(bench: Bench, made: Callable[[], LogAt], part: int, kills: int) -> list[str]:
    """Logs that aren't there yet, whose first controller is killed as it makes them; another one then goes on, or makes them."""
    drawn, found = random.Random(f"{bench.seed} {part}"), []
    opening, _, _ = paced(bench, made(), Marks())
    for _ in range(kills):
        log, marks = made(), Marks()
        running = Running(bench, log.words())
        running.send(marks.marked(SETUP[0]))
        if drawn.random() < 0.3:
            time.sleep(drawn.uniform(0.5, 1.0) * opening)
        else:  # behind the first that stands there
            until(log.state, pause=0.0005)
            time.sleep(drawn.uniform(0, 0.02))
        found += [] if running.kill(is_whole=drawn.random() < 0.5) else ["a process of a controller that was killed is left"]
        bench.tally.add(**{"kills as a log is made": 1, "kills as a log is made, before anything stands there": int(not log.state())})
        last = Running(bench, log.words())
        last.send(*marks.all(*SETUP, "get corder 1"))
        found += [*went_well(last.end()), *differences(bench, log, [running.feed, last.feed])]
    return found


def paced(bench: Bench, log: LogAt, marks: Marks) -> tuple[float, float, Feed]:
    """How long it takes here until a controller has opened the log and answers, and how long an entry takes then; and what was sent for that."""
    begun = time.monotonic()
    running = Running(bench, log.words())
    running.ask(marks.marked("get corder 1"))
    opened = time.monotonic()
    for _ in range(ENTRIES):
        running.ask(marks.marked("get corder 1"))
    entry = (time.monotonic() - opened) / ENTRIES
    running.end()
    return opened - begun, entry, running.feed


def killed_once(bench: Bench, log: LogAt, drawn: random.Random, marks: Marks, pace: tuple[float, float]) -> tuple[Feed, list[str]]:
    """What a client sent to a controller that was killed at a moment that is drawn, and what it got; and what was odd."""
    running = Running(bench, log.words(drawn.randrange(3)))
    lines, kind = marks.all(*drawn_lines(drawn)), drawn.random()
    if kind < 0.4:  # as it opens the log, plays it, or answers the first lines
        running.send(*lines)
        time.sleep(drawn.uniform(0.2, 1.1) * pace[0])
    else:  # as it appends, applies and answers
        answered = 1 if kind < 0.6 else drawn.randint(1, LINES)
        for line in lines[:answered]:
            running.ask(line)
        running.send(*lines[answered : LINES if kind < 0.6 else answered + 1])
        time.sleep(drawn.uniform(0, 1.1) * pace[1])
    is_gone = running.kill(is_whole=drawn.random() < 0.5)
    return running.feed, [] if is_gone else ["a process of a controller that was killed is left"]


def drawn_lines(drawn: random.Random) -> Iterator[str]:
    """Lines of a client."""
    for _ in range(LINES):
        key = drawn.randrange(1, 40)
        yield drawn.choice([f"insert corder {key} v{drawn.randrange(9)}", f"append corder {key} b", f"delete corder {key}", f"get corder {key}", "dump"])


def tell_moments(bench: Bench, log: LogAt, feeds: Sequence[Feed]) -> None:
    """Counts when the kills fell, by what was answered and by what stands in the log."""
    text = b"\n".join(log.entries())
    for feed in feeds:
        answered, stand = len(feed.answers), sum(f'"{it}"'.encode() in text for it in (line.replace("\t", "\\t") for line in feed.sent))
        moment = "kills before the first answer" if not answered else "kills behind the last answer" if answered == len(feed.sent) else "kills between answers"
        bench.tally.add(**{"kills": 1, moment: 1, "kills with lines in the log that weren't answered": int(stand > answered)})
        bench.tally.add(**{"kills with nothing in the log": int(not stand)})
