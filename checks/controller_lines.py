"""Lines of all kinds through a batch and through the prompt, beside the program."""
from __future__ import annotations

import random
import subprocess
from collections.abc import Iterator

from controller_logs import SqliteAt
from controller_runs import SETUP, WATCHED, Bench, Case, Marks, Running, differences, lines_in, went_well

BEGIN = "".join(f"{it}\n" for it in SETUP).encode()
GET = b"get corder 1"
OTHER_ENDS = (b"\x0b", b"\x0c", b"\x1c", b"\x1d", b"\xc2\x85", b"\xe2\x80\xa8", b"\x85", b"\r ", b"\x1a")  # of lines, elsewhere than here
LONG = 4096  # bytes that a line may have
TOO_LONG = 300_000  # for an entry
MANY = 100_000
ROWS = 100


def inputs() -> Iterator[tuple[str, bytes]]:
    """Inputs of a batch."""
    yield "nothing", b""
    yield "carriage returns", BEGIN.replace(b"\n", b"\r\n") + GET + b"\r\n" + GET + b"\r\r\n\r" + GET + b"\n\r\n" + GET
    yield "a last line without its end", BEGIN + GET
    yield "a last line that ends with a carriage return", BEGIN + GET + b"\r"
    yield "a last line that is a comment", BEGIN + GET + b"\n# a"
    yield "bytes that are no UTF-8", BEGIN + b"insert corder 2 \xff\xfe\n\x80\n\xed\xa0\x80\n\xc3\xa9 \xc3\nget corder 2\n\x00\nget\x00 corder 1\n"
    yield "other ends of lines", BEGIN + b"\n".join(GET + it for it in OTHER_ENDS) + b"\n\x1c\n\x85\n"
    padded = b"".join(GET + b" " * (LONG - len(GET) + more) + b"\n" for more in (-1, 0, 1))
    yield "lines of 4,096 bytes and more", BEGIN + padded + b"x" * LONG + b"\r\n" + b"y" * LONG + b"\r"
    yield "silent lines", b"\n \t\n\r\n \r\n#\n# \xff\r\n#" + b"y" * TOO_LONG + b"\n" + b" " * TOO_LONG + b"\n" + BEGIN + b" # a\n\t#\n\x0b\n" + GET + b"\n\n#"
    yield "long lines", BEGIN + b"z" * 100_000 + b"\n" + b"\xff" * 40_000 + b"\n" + GET


def given_bytes(bench: Bench) -> list[str]:
    """Inputs are answered as the program answers them, and so is the log; and so are drawn bytes."""
    drawn = random.Random(bench.seed)
    noise = bytes(drawn.choice(b"get corder1\n\n\r #\t\x00\x80\xff\xc3\xa9") for _ in range(6000))
    return [f"{name}: {odd}" for name, given in [*inputs(), ("drawn bytes", BEGIN + noise)] for odd in like_a_run(bench, given)]


def like_a_run(bench: Bench, given: bytes) -> list[str]:
    """What differs between a batch and a run of the same bytes, or of what the log says then."""
    log, expected = SqliteAt(bench.folder() / "log"), bench.output(given)
    ended, printed = bench.ended([*log.words(), "--batch", *WATCHED], given)
    found = went_well(ended)
    found += [] if printed.decode() == expected else [f"the batch printed {printed[-200:]!r} at its end, and a run {expected[-200:]!r}"]
    found += [] if "".join(f"{it}\n" for it in bench.answers(lines_in(log.entries()))) == expected else ["a run of the log prints something else"]
    bench.tally.add(lines=len(lines_in(log.entries())))
    return found


def too_long(bench: Bench) -> list[str]:
    """A line that no entry holds is told with its number, and isn't written; the lines around it are answered."""
    found: list[str] = []
    for line in (b"x" * TOO_LONG, b"\xff" * 60_000):
        log = SqliteAt(bench.folder() / "log")
        ended, printed = bench.ended([*log.words(), "--batch", *WATCHED], BEGIN + b"# a\n" + line + b"\n" + GET + b"\n")
        told = [it for it in ended.said.splitlines() if it.startswith(f"controller: line {len(SETUP) + 2}: ") and "262,144" in it]
        found += [] if ended.status == 1 and len(told) == 1 and len(ended.said) < 500 else [f"it ended with {ended.status}: {ended.said[:300]}"]
        found += [] if printed.decode() == bench.output(BEGIN + GET) and lines_in(log.entries()) == [*SETUP, GET.decode()] else ["other lines or answers"]
    return found


def each_at_once(bench: Bench) -> list[str]:
    """Each answer is there before the next line is given."""
    log, marks = SqliteAt(bench.folder() / "log"), Marks()
    running = Running(bench, log.words())
    lines = marks.all(*SETUP, *["append corder 1 x", "get corder 1"] * 10)
    silent = next((line for line in lines if running.ask(line) is None), None)
    found = [] if silent is None else [f"{silent!r} isn't answered while the input is open"]
    return [*found, *went_well(running.end()), *differences(bench, log, [running.feed])]


def many(bench: Bench) -> list[str]:
    """So many lines in one go come out right, in their order."""
    drawn = random.Random(bench.seed)
    lines = ["keyspace k", "table k t", *(f"insert t {key} v{key}" for key in range(ROWS))]
    given = "".join(f"{it}\n" for it in [*lines, *(f"get t {drawn.randrange(ROWS)}" for _ in range(MANY - len(lines)))]).encode()
    log, expected = SqliteAt(bench.folder() / "log"), bench.output(given, ["k"])
    ended, printed = bench.ended([*log.words(), "--batch", "k"], given)
    entries = log.entries()
    bench.tally.add(lines=MANY, entries=len(entries), answered=printed.count(b"\n"))
    found = went_well(ended)
    found += [] if printed.decode() == expected else ["the answers are others than those of a run, or in another order"]
    found += [] if "".join(f"{it}\n" for it in lines_in(entries)).encode() == given else ["the log has other lines"]
    return found + ([] if len(entries) <= MANY // 100 else [f"it took {len(entries)} entries"])


def grouped(bench: Bench) -> list[str]:
    """Lines that are given together are answered in their order, and so are those of two controllers."""
    log, marks = SqliteAt(bench.folder() / "log"), Marks()
    one, other = Running(bench, log.words()), Running(bench, log.words())
    one.send(*marks.all(*SETUP))
    found = [] if one.wait(len(SETUP)) else ["nothing is answered"]
    lines = ["append corder 1 x", *(line for key in range(2, 60) for line in (f"insert corder {key} v{key}", f"get corder {key}"))]
    for it in (one, other) * 4:
        it.send(*marks.all(*lines))
    found += [odd for it in (one, other) for odd in went_well(it.end())]
    return found + differences(bench, log, [one.feed, other.feed])


def prompt(bench: Bench) -> list[str]:
    """The prompt over a pipe: what is typed stays, is printed and saved as a script, and isn't taken back; a second one goes on."""
    folder = bench.folder()
    log, saved = SqliteAt(folder / "log"), folder / "saved"
    typed = [*SETUP, "# not written", "get corder 1 # a row", "get corder 9", "back", "create mv commerce customer corder", "advance mv", "lag mv", "lines"]
    first = _typed(bench, [*log.words(), *WATCHED], [*typed, f"save {saved}", "quit", "get corder 1"])
    lines = [*SETUP, "get corder 1", "get corder 9", "create mv commerce customer corder", "advance mv forward 1 100"]
    found = [] if lines_in(log.entries()) == lines else [f"the log has {lines_in(log.entries())}"]
    printed = first.stdout.splitlines()
    answers = bench.answers(lines)
    found += [f"{it} isn't printed" for it in [*answers, f"{len(lines)} lines"] if it not in printed]
    found += [] if any(it.startswith("prompt: what stands in the log stays") for it in printed) else ["`back` isn't refused"]
    at = printed.index(lines[0]) if lines[0] in printed else 0
    found += [] if printed[at : at + len(lines)] == lines else [f"`lines` prints {printed[at:]}"]
    found += [] if saved.exists() and bench.output(saved.read_bytes()).splitlines() == answers else ["what is saved runs otherwise"]
    second = _typed(bench, log.words(), ["get corder 1", "lines"])
    found += [] if second.stdout.splitlines() == ["row a", *lines, "get corder 1"] else [f"a second prompt prints {second.stdout}"]
    return found + [f"status {it.returncode}: {it.stderr}" for it in (first, second) if it.returncode or it.stderr]


def _typed(bench: Bench, words: list[str], lines: list[str]) -> "subprocess.CompletedProcess[str]":
    """What a prompt comes to whose lines come through a pipe."""
    given = "".join(f"{it}\n" for it in lines)
    return subprocess.run([bench.tool, *words], input=given, stdout=subprocess.PIPE, stderr=subprocess.PIPE, text=True, timeout=bench.patience, check=False)


CASES: list[Case] = [
    ("lines of all kinds", given_bytes),
    ("a line that is too long", too_long),
    ("each answer at once", each_at_once),
    ("a hundred thousand lines", many),
    ("lines given together", grouped),
    ("the prompt over a pipe", prompt),
]
