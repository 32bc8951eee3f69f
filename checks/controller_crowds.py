"""Several controllers of one log at once; nodes of an etcd that go and come; and answers that get lost."""
from __future__ import annotations

import concurrent.futures
import os
import re
import signal
import threading
import time
from collections.abc import Sequence

from controller_logs import EtcdAt, Nodes, SqliteAt, drawn_fates, lossy
from controller_runs import SETUP, Bench, Case, LogAt, Marks, Running, children, differences, skipped, stopped_well, until, went_well

MOVE = [*SETUP, "create mv commerce customer corder", "advance mv forward 1 100"]
SWITCHED = [f"step mv {done}" for done in range(12)]
GIVEN_UP = ["step mv 0", "step mv 1", "step mv 2", "undo mv 3", "undo mv 2", "undo mv 1"]
WALK = ["begin-switch mv all", *GIVEN_UP, "begin-switch mv all", *SWITCHED, "begin-reverse mv all", *SWITCHED]
LATE = ("refused F25 Stale", "refused F14 NothingUnderWay", "refused F13 UnderWay")
BURST = 12
THROUGH_LOSSES = 200
QUIET = 3.0  # seconds in which nothing may be answered


def three(bench: Bench, log: LogAt) -> list[str]:
    """Three controllers whose clients write, feed the streams, and take the steps and undos of one switch by number, all at the same moments."""
    marks = Marks()
    crowd = [Running(bench, log.words(turn)) for turn in range(3)]
    found = [f"{line} isn't answered" for line in MOVE if crowd[0].ask(marks.marked(line)) is None]
    with concurrent.futures.ThreadPoolExecutor(len(crowd)) as pool:
        for number, line in enumerate(WALK):
            list(pool.map(lambda client, number=number: write_and_feed(crowd[client], marks, client, number), range(len(crowd))))
            feed(crowd[0], marks)
            found += one_is_taken(list(pool.map(lambda it, line=line: it.ask(marks.marked(line)), crowd)), line)
            if found:
                break
    shown = {it.ask(marks.marked("show mv")) for it in crowd}
    found += [f"they show {shown}"] if len(shown) != 1 else []
    bench.tally.add(meetings=len(WALK))
    found += [odd for it in crowd for odd in went_well(it.end())]
    return found + differences(bench, log, [it.feed for it in crowd])


def one_is_taken(answers: Sequence[str | None], line: str) -> list[str]:
    """All asked for the same at the same moment: it is taken once, and the others hear that somebody was there before."""
    late = [it for it in answers if it in LATE]
    return [] if answers.count("ok") == 1 and len(late) == len(answers) - 1 else [f"{line} was answered {answers}"]


def write_and_feed(running: Running, marks: Marks, client: int, number: int) -> None:
    """Lines of a client in one go, and turns of the streams behind them."""
    base = 10_000 * (client + 1) + 100 * number
    written = [f"insert corder {base + at} c{client}" for at in range(BURST)]
    running.send(*marks.all(*written, f"append corder {base} x", "append corder 1 y", f"get corder {base}"))
    running.wait(len(running.feed.sent))
    feed(running, marks)


def feed(running: Running, marks: Marks) -> None:
    """Turns of the streams that run, by what `show` says; others may have been there before."""
    shown = running.ask(marks.marked("show mv")) or ""
    for stream, position in re.findall(r" (forward|back) running (\d+)", shown):
        running.ask(marks.marked(f"advance mv {stream} {position} 5000"))


# ---- controllers and nodes that are stopped


def stopped(bench: Bench, log: LogAt, seconds: float) -> list[str]:
    """A controller that is stopped while another goes on, and then goes on itself."""
    marks = Marks()
    one, other = (Running(bench, log.words(turn)) for turn in range(2))
    found = [] if all(one.ask(marks.marked(it)) for it in MOVE) and other.ask(marks.marked("get corder 1")) else ["nothing is answered"]
    for moment in range(3):
        one.send(*marks.all(*(f"insert corder {moment}{at} one" for at in range(BURST))))
        time.sleep(0.01 * moment)
        one.signal(signal.SIGSTOP)
        if not works(other, marks, seconds / 3):  # one that was stopped in a transaction holds SQLite's file
            bench.tally.add(**{"stops that held the file": 1})
            found += ["the other doesn't go on meanwhile"] if isinstance(log, EtcdAt) else []
        one.signal(signal.SIGCONT)
        found += [] if all(it.wait(len(it.feed.sent)) for it in (one, other)) else ["they aren't answered behind a stop"]
    bench.tally.add(faults=3)
    shown = {it.ask(marks.marked("get corder 1")) for it in (one, other)}
    found += [f"they have {shown}"] if len(shown) != 1 else []
    found += [f"it ended with {it}" for it in (one.end(), other.end()) if it.status]
    return found + differences(bench, log, [one.feed, other.feed])


def works(running: Running, marks: Marks, seconds: float) -> bool:
    """Whether a client that works for a while is answered all the time."""
    last = time.monotonic() + seconds
    while (left := last - time.monotonic()) > 0:
        running.send(marks.marked("append corder 1 z"))
        if not running.wait(len(running.feed.sent), left + 1):
            return False
        time.sleep(0.05)
    return True


class Steady:
    """A client that sends a line whenever the one before is answered, until it is told to end."""

    def __init__(self, running: Running, marks: Marks) -> None:
        self.running, self._marks, self._is_over = running, marks, False
        self._thread = threading.Thread(target=self._go, daemon=True)
        self._thread.start()

    def _go(self) -> None:
        number = 0
        while not self._is_over:
            number += 1
            self.running.ask(self._marks.marked(f"insert corder {number} n"))
            time.sleep(0.02)

    def goes_on(self, count: int = 10) -> list[str]:
        """Whether more is answered."""
        so_far = len(self.running.feed.answers)
        return [] if until(lambda: len(self.running.feed.answers) >= so_far + count) else [f"nothing is answered behind {so_far} lines"]

    def is_quiet(self) -> list[str]:
        """Whether nothing is answered for a while."""
        time.sleep(0.5)  # what was answered by the nodes before may still be on its way
        so_far = len(self.running.feed.answers)
        time.sleep(QUIET)
        more = len(self.running.feed.answers) - so_far
        return [f"{more} lines are answered without most of the nodes"] if more else []

    def end(self) -> None:
        self._is_over = True
        self._thread.join()


def nodes_go(bench: Bench) -> list[str]:
    """Nodes of an etcd are killed and stopped, one at a time, then two, and come back."""
    nodes, marks = Nodes(bench.folder()), Marks()
    try:
        log = EtcdAt(nodes, "/mt/nodes")
        running, other = Running(bench, log.words()), Running(bench, log.words(1))
        other.send(*marks.all(*SETUP))
        found = [] if other.wait(len(SETUP)) else ["nothing is answered"]
        client = Steady(running, marks)
        found += client.goes_on() + one_goes(nodes, client) + two_go(nodes, client)
        client.end()
        bench.tally.add(faults=8)
        other.ask(marks.marked("get corder 1"))
        found += [f"{it.end()}" for it in (running, other) if it.end().status]
        found += [] if "the log answers again" in running.said() else [f"it doesn't tell that the log answers again: {running.said()[-500:]}"]
        return found + differences(bench, log, [running.feed, other.feed])
    finally:
        nodes.end()


def one_goes(nodes: Nodes, client: Steady) -> list[str]:
    """Each of two nodes in turn: the one that the controller asks first, and another."""
    found = []
    for node in (0, 1):
        nodes.signal(signal.SIGKILL, node)
        found += client.goes_on()
        found += [] if nodes.start_again(node) else ["a node doesn't start again"]
        nodes.signal(signal.SIGSTOP, node)
        found += client.goes_on()
        nodes.signal(signal.SIGCONT, node)
        found += client.goes_on()
    return found


def two_go(nodes: Nodes, client: Steady) -> list[str]:
    """Two nodes, so that no entry can be written."""
    nodes.signal(signal.SIGSTOP, 0, 1)
    found = client.is_quiet()
    nodes.signal(signal.SIGCONT, 0, 1)
    found += client.goes_on()
    nodes.signal(signal.SIGKILL, 1, 2)
    found += [] if until(lambda: "nothing is answered until it does" in client.running.said()) else ["it doesn't tell that nothing is answered"]
    found += client.is_quiet()
    found += [f"node {it} doesn't start again" for it in (1, 2) if not nodes.start_again(it)]
    return found + client.goes_on()


def through_losses(bench: Bench, nodes: Nodes, appends: int = THROUGH_LOSSES) -> list[str]:
    """Appends one by one, of which many aren't answered, stand in the log once each; beside another controller that appends too."""
    marks = Marks()
    server = lossy(nodes.ports[0], drawn_fates(bench.seed, bench.tally.add))
    try:
        log = EtcdAt(nodes, f"/mt/{bench.folder().name}", [server.port] * 3)
        one, other = Running(bench, log.words()), Running(bench, EtcdAt(nodes, log.prefix).words(1))
        found = [] if all(one.ask(marks.marked(it)) for it in SETUP) else ["nothing is answered"]
        for number in range(appends):
            if number % 20 == 0:
                other.send(marks.marked(f"append corder 1 {number}"))
            if one.ask(marks.marked(f"append corder 1 {number % 7}")) is None:
                found.append(f"line {number} isn't answered")
                break
        bench.tally.add(**{"appends through losses": appends})
        found += [f"it ended with {it}" for it in (one.end(), other.end()) if it.status]
        return found + differences(bench, EtcdAt(nodes, log.prefix), [one.feed, other.feed])
    finally:
        server.close()


def large(bench: Bench, log: LogAt) -> list[str]:
    """Entries as large as they get, one behind the other, from two controllers, and a third one that plays them."""
    marks, wide = Marks(), " " * 3900
    one, other = Running(bench, log.words()), Running(bench, log.words(1))
    for it in (one, other):
        it.send(*marks.all(*[f"get corder 1{wide}"] * 120))
    found = [odd for it in (one, other) for odd in went_well(it.end())]
    last = Running(bench, log.words(2))
    last.send(*marks.all("get corder 1"))
    sizes = [len(it) for it in log.entries()]
    found += [] if max(sizes) > 50_000 else [f"the entries have {sizes} bytes"]
    return [*found, *went_well(last.end()), *differences(bench, log, [one.feed, other.feed, last.feed])]


def held_up(bench: Bench) -> list[str]:
    """While somebody else holds the file nothing is answered, and it is told; it goes on from there. What was asked before it is killed isn't written."""
    log, marks = SqliteAt(bench.folder() / "log"), Marks()
    running, killed = Running(bench, log.words()), Running(bench, log.words())
    found = [] if all(running.ask(marks.marked(it)) for it in SETUP) and killed.ask(marks.marked("get corder 1")) else ["nothing is answered"]
    with log.held():
        for it in (running, killed):
            it.send(*marks.all("insert corder 2 b", "get corder 2"))
        found += ["a line is answered that can't stand in the log yet"] if killed.wait(2, QUIET) else []
        found += [] if killed.kill() else ["a process of a controller that was killed is left"]
        found += [] if until(lambda: "nothing is answered until it does" in running.said(), bench.patience) else ["it doesn't tell that nothing is answered"]
    found += [] if running.wait(len(SETUP) + 2) else ["it isn't answered once the file is free"]
    bench.tally.add(faults=2)
    ended = running.end()
    found += [] if ended.status == 0 and "the log answers again" in ended.said else [f"it ended with {ended}"]
    return found + differences(bench, log, [running.feed, killed.feed])


def core_killed(bench: Bench) -> list[str]:
    """The process of the core is killed: the controller stops, and says why; another one goes on."""
    log, marks = SqliteAt(bench.folder() / "log"), Marks()
    running = Running(bench, log.words())
    found = [] if all(running.ask(marks.marked(it)) for it in SETUP) else ["nothing is answered"]
    for core in children(running.pid):
        os.kill(core, signal.SIGKILL)
    found += ["a line is answered without a core"] if running.ask(marks.marked("append corder 1 b")) is not None else []
    found += stopped_well(running.end(), "core")
    other = Running(bench, log.words())
    found += [] if other.ask(marks.marked("get corder 1")) == "row ab" else ["the line isn't in the log"]
    bench.tally.add(faults=1)
    return [*found, *went_well(other.end()), *differences(bench, log, [running.feed, other.feed])]


def cases(nodes: Nodes | None, seconds: float) -> list[Case]:
    """These cases. A controller is stopped for so many seconds."""
    found: list[Case] = [
        ("three controllers, SQLite", lambda bench: three(bench, SqliteAt(bench.folder() / "log"))),
        ("a controller that is stopped, SQLite", lambda bench: stopped(bench, SqliteAt(bench.folder() / "log"), seconds)),
        ("large entries, SQLite", lambda bench: large(bench, SqliteAt(bench.folder() / "log"))),
        ("a file that is held", held_up),
        ("a core that is killed", core_killed),
    ]
    of_etcd: list[Case] = [
        ("nodes that go and come", nodes_go),
        ("appends through losses", lambda bench: through_losses(bench, nodes)),
        ("large entries, etcd", lambda bench: large(bench, EtcdAt(nodes, f"/mt/{bench.folder().name}"))),
        ("three controllers, etcd", lambda bench: three(bench, EtcdAt(nodes, f"/mt/{bench.folder().name}"))),
        ("a controller that is stopped, etcd", lambda bench: stopped(bench, EtcdAt(nodes, f"/mt/{bench.folder().name}"), seconds)),
    ]
    return [(name, so if nodes else skipped) for name, so in of_etcd] + found
