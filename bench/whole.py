#!/usr/bin/env python3
"""Measures the whole program on seven inputs of about 1 MB each, and on request beside another program that prints the same.

bench/whole.py [--beside OTHER] [--instructions | --memory | --faults] [--only INPUT] [--bytes N] [--keep FOLDER] [PROGRAM]: PROGRAM is crates/mt_program/out/mt_program where none is named.

Of each input the least processor time of fifteen runs counts, in turn with those of the other program, less that of an empty script; `--instructions` counts instructions instead, by
one run under `valgrind --tool=callgrind`; `--memory` tells the most memory of five runs, and `--faults` the page faults of one. With `--beside` both outputs have to be equal, byte for byte, and the ratio is told.
`--only` measures the input of that name alone, `--bytes` makes inputs of so many bytes at most, to see how time grows, and `--keep` leaves the inputs in a folder. The seeds are fixed, so that each run measures the same inputs.

client operations: rows of 16 tables in two keyspaces, inserted, updated, appended to, deleted and got by names alone.
a large table: rows of four tables; three of them are moved while clients go on, switched, reversed, switched again and completed.
many short moves: four workflows, each created, caught up, switched, reversed or undone, shown and cancelled, again and again.
long logs: thousands of changes of one table between a switch and its reversal, again and again.
rules: rules are set, changed and taken away by thousands, and their document is written now and then.
a document of rules, a dump: read and written in their canonical form.
"""
import argparse
import json
import pathlib
import random
import re
import resource
import string
import subprocess
import sys
import tempfile

LIMIT = 1_048_576  # how many bytes an input has at most; main sets another
LETTERS = string.ascii_letters + string.digits
SIDES = ["keyspace commerce", "keyspace customer"]
SCRIPT = ["run", "commerce", "customer"]
SEED = 7
RUNS = 15  # of which the least time counts


class Rows:
    """Lines of clients on the rows of some tables: a row that isn't there is inserted, and the others are changed, got or taken away."""

    def __init__(self, draw, tables, keys):
        self.draw, self.tables, self.keys = draw, tables, keys
        self.long = {}  # how long the value of each row is

    def value(self):
        return "".join(self.draw.choices(LETTERS, k=self.draw.randint(4, 20)))

    def get(self):
        return f"get {self.draw.choice(self.tables)} {self.draw.choice(self.keys)}"

    def line(self, verbs=("get", "update", "append", "delete"), weights=(50, 25, 15, 10)):
        row = self.draw.choice(self.tables), self.draw.choice(self.keys)
        verb = self.draw.choices(verbs, weights)[0] if row in self.long else "insert"
        if verb == "append" and self.long[row] == 64:
            verb = "update"
        word = {"insert": self.value(), "update": self.value(), "append": "x"}.get(verb, "")
        if verb == "delete":
            del self.long[row]
        elif verb != "get":
            self.long[row] = len(word) + (self.long[row] if verb == "append" else 0)
        return f"{verb} {row[0]} {row[1]} {word}".rstrip()


def keys(draw, count):
    return [draw.randrange(2**32) for _ in range(count)]


def as_many_as_fit(head, lines, tail=()):
    """The text of a script: a head, then lines as long as there is room, then a tail."""
    text = "\n".join(head) + "\n"
    room = LIMIT - len(text) - sum(len(line) + 1 for line in tail)
    some = []
    for line in lines:
        room -= len(line) + 1
        if room < 0:
            break
        some.append(line)
    return (text + "".join(line + "\n" for line in [*some, *tail])).encode()


def client_operations(draw):
    tables = [f"orders_{number:02}" for number in range(16)]
    head = SIDES + [f"table {'commerce' if number % 2 == 0 else 'customer'} {table}" for number, table in enumerate(tables)]
    rows = Rows(draw, tables, keys(draw, 2000))
    return as_many_as_fit(head, iter(rows.line, None))


def a_large_table(draw):
    tables = ["corder", "lineitem", "payment", "audit"]
    rows = Rows(draw, tables, keys(draw, 4000))
    head = SIDES + [f"table commerce {table}" for table in tables] + [rows.line() for _ in range(11_000)]
    written = sum(line.split()[0] not in ("keyspace", "table", "get") for line in head)

    def lines():
        yield "create mv commerce customer corder,lineitem,payment"
        at = written
        for _ in range(300):
            yield f"advance mv forward {at} 1000"
            for _ in range(50):
                yield rows.get()
        yield "switch mv replica,rdonly"
        yield "switch mv all"
        for _ in range(2000):
            yield rows.line()
        yield "reverse mv all"
        for _ in range(2000):
            yield rows.line()
        yield "switch mv all"
        while True:
            yield rows.line()

    return as_many_as_fit(head, lines(), ["complete mv"])


def many_short_moves(draw):
    names = ["alpha", "beta", "gamma", "delta"]
    tables = {name: [f"{name}{number}" for number in range(3)] for name in names}
    head = SIDES + [f"table commerce {table}" for name in names for table in tables[name]]
    rows = {name: Rows(draw, tables[name], keys(draw, 6)) for name in names}
    verbs, weights = ("update", "append", "delete"), (60, 25, 15)
    written = 0

    def write(name):
        nonlocal written
        written += 1
        return rows[name].line(verbs, weights)

    def lines():
        for name in names:
            for _ in range(60):
                yield write(name)
        while True:
            for name in names:
                yield f"create {name} commerce customer {','.join(tables[name])}"
                for _ in range(4):
                    yield f"advance {name} forward {written} 10"
                at = written
                yield write(name)
                yield f"advance {name} forward {at} 100"
                if draw.random() < 1 / 3:
                    yield f"begin-switch {name} all"
                    yield from (f"step {name} {done}" for done in range(6))
                    yield from (f"undo {name} {done}" for done in range(6, 0, -1))
                else:
                    yield f"switch {name} {draw.choice(('all', 'replica,rdonly'))}"
                    yield f"get {tables[name][0]}@replica {draw.choice(rows[name].keys)}"
                    yield f"reverse {name} all"
                yield f"show {name}"
                yield f"cancel {name}"

    return as_many_as_fit(head, lines())


def long_logs(draw):
    rows = Rows(draw, ["corder"], keys(draw, 400))
    verbs, weights = ("update", "append", "delete"), (60, 25, 15)
    head = SIDES + ["table commerce corder"] + [rows.line(verbs, weights) for _ in range(400)]
    head += ["create mv commerce customer corder", "advance mv forward 400 1000"]

    def lines():
        while True:
            for way in ("switch", "reverse"):
                for _ in range(6200):
                    yield rows.line(verbs, weights)
                yield f"{way} mv all"

    return as_many_as_fit(head, lines(), ["show mv"])


def rules(draw):
    tables = [f"customer_{number:02}" for number in range(16)]
    head = SIDES + [f"table commerce {table}" for table in tables] + [f"insert {table} {key} value{key}" for table in tables for key in range(8)]
    names = [f"name_{number:04}" for number in range(1000)]

    def lines():
        count = 0
        while True:
            count += 1
            table, name = draw.choice(tables), draw.choice(names)
            kind = draw.choice(("", "", "@replica", "@rdonly"))
            if draw.random() < 0.5:
                yield f"get {name} {draw.randrange(8)}"
            elif draw.random() < 0.2:
                yield f"rule {name}{kind} -"
            else:
                yield f"rule {name}{kind} commerce.{table}"
            if count % 1600 == 0:
                yield "rules"

    return as_many_as_fit(head, lines())


def long_name(draw):
    return draw.choice(string.ascii_letters) + "".join(draw.choices(LETTERS, k=draw.randint(40, 60)))


def a_document_of_rules(draw):
    some, size = [], 20
    while len(some) < 4000:
        target = f"{long_name(draw)}.{long_name(draw)}"
        rule = {draw.choice(("from_table", "fromTable")): long_name(draw), draw.choice(("to_tables", "toTables")): [target], "note": "kept " * 8}
        size += len(json.dumps(rule)) + 2
        if size > LIMIT:
            break
        some.append(rule)
    return json.dumps({"rules": some}).encode()


def a_dump(draw):
    spaces, denied, size = [], [], 60
    while len(spaces) < 32:
        name, tables = long_name(draw)[:30], []
        size += len(name) + 40
        while len(tables) < 256 and size < LIMIT * (len(spaces) + 1) // 33:
            tables.append(long_name(draw))
            size += len(tables[-1]) + 4
            if len(tables) % 4 == 0:
                denied.append(f"{name}.{tables[-1]}")
                size += len(denied[-1]) + 4
        spaces.append({"name": name, "tables": tables})
    return json.dumps({"version": 1, "keyspaces": spaces, "rules": [], "denied": denied}).encode()


INPUTS = (
    ("client operations", SCRIPT, client_operations),
    ("a large table", SCRIPT, a_large_table),
    ("many short moves", SCRIPT, many_short_moves),
    ("long logs", SCRIPT, long_logs),
    ("rules", SCRIPT, rules),
    ("a document of rules", ["rules"], a_document_of_rules),
    ("a dump", ["topology"], a_dump),
)


def output(program, words, text):
    return subprocess.run([program, *words], input=text, stdout=subprocess.PIPE, check=True).stdout


def seconds(programs, words, text):
    """The least processor time of each program, of fifteen runs in turn, so that a slow moment of the machine is one of both."""
    times = {program: [] for program in programs}
    for program in programs * RUNS:
        before = resource.getrusage(resource.RUSAGE_CHILDREN)
        subprocess.run([program, *words], input=text, stdout=subprocess.DEVNULL, check=True)
        after = resource.getrusage(resource.RUSAGE_CHILDREN)
        times[program].append(after.ru_utime + after.ru_stime - before.ru_utime - before.ru_stime)
    return [min(times[program]) for program in programs]


def instructions(program, words, text):
    """The instructions of one run."""
    with tempfile.NamedTemporaryFile() as told:
        command = ["valgrind", "--tool=callgrind", f"--callgrind-out-file={told.name}", program, *words]
        done = subprocess.run(command, input=text, stdout=subprocess.DEVNULL, stderr=subprocess.PIPE, check=True)
    return int(re.search(rb"Collected : (\d+)", done.stderr).group(1))


def memory(program, words, text):
    """The most memory of a run in kilobytes, of five: what the kernel last says of it before it ends. Memory that is given back counts."""
    most = 0
    for _ in range(5):
        with tempfile.TemporaryFile() as given:
            given.write(text)
            given.seek(0)
            run = subprocess.Popen([program, *words], stdin=given, stdout=subprocess.DEVNULL)
            while run.poll() is None:
                found = re.search(r"VmHWM:\s+(\d+)", pathlib.Path(f"/proc/{run.pid}/status").read_text())
                most = max(most, int(found.group(1)) if found else 0)
    return most


def faults(program, words, text):
    """The page faults of one run."""
    before = resource.getrusage(resource.RUSAGE_CHILDREN).ru_minflt
    subprocess.run([program, *words], input=text, stdout=subprocess.DEVNULL, check=True)
    return resource.getrusage(resource.RUSAGE_CHILDREN).ru_minflt - before


# How each is measured, its unit and scale, and whether that of an empty script is taken off.
MEASURES = {
    "instructions": (instructions, "million instructions", 1e-6, True),
    "memory": (memory, "MB", 1e-3, False),
    "faults": (faults, "page faults", 1, False),
}


def main():
    global LIMIT
    top = pathlib.Path(__file__).resolve().parent.parent
    words = argparse.ArgumentParser(description="Measures the whole program on seven inputs.")
    words.add_argument("program", nargs="?", default=str(top / "crates/mt_program/out/mt_program"))
    words.add_argument("--beside")
    kind = words.add_mutually_exclusive_group()
    for name in MEASURES:
        kind.add_argument(f"--{name}", dest="kind", action="store_const", const=name)
    words.add_argument("--bytes", type=int, default=LIMIT)
    words.add_argument("--only", choices=[title for title, _, _ in INPUTS])
    words.add_argument("--keep", type=pathlib.Path)
    asked = words.parse_args()
    LIMIT = asked.bytes
    measure, unit, scale, is_more = MEASURES.get(asked.kind, (None, "ms", 1e3, True))
    programs = [asked.program] + ([asked.beside] if asked.beside else [])

    def of_each(words, text):
        return [measure(program, words, text) for program in programs] if measure else seconds(programs, words, text)

    empty = of_each(SCRIPT, b"") if is_more else [0 for _ in programs]
    for title, command, make in INPUTS:
        if asked.only not in (None, title):
            continue
        text = make(random.Random(SEED))
        if asked.keep:
            (asked.keep / title.replace(" ", "_")).write_bytes(text)
        if asked.beside and output(asked.program, command, text) != output(asked.beside, command, text):
            sys.exit(f"{title}: the outputs differ")
        took = [all_of_it - least for all_of_it, least in zip(of_each(command, text), empty)]
        beside = f", the other {took[1] * scale:.1f}, ratio {took[0] / took[1]:.2f}" if asked.beside else ""
        lines = len(text.splitlines())
        print(f"{title}: {len(text)} bytes, {lines} lines, {took[0] * scale:.1f} {unit}{beside}")


if __name__ == "__main__":
    main()
