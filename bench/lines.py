#!/usr/bin/env python3
"""Measures how many lines of a script the program answers in a second of processor time.

bench/lines.py [PROGRAM]: PROGRAM is crates/mt_program/out/mt_program where none is named.

Two scripts at the size limit (1,048,576 bytes), each run at a quarter, a half and the whole of its lines, five times each; the
least processor time counts, less that of an empty script. The seed is fixed, so that each run measures the same lines.

through a rule: a keyspace, a table and a rule, and then rows inserted and got through the rule.
all operations: 16 tables in two keyspaces, and then rows inserted, updated, appended to, deleted and got by unqualified names.

Keys are drawn as in Zipf's law.
"""
import pathlib
import random
import resource
import subprocess
import sys

LIMIT = 1_048_576
KEYS = range(1, 30_001)
WEIGHTS = [1 / key for key in KEYS]


def whole(head, next_line):
    """Lines behind a head, as many as fit in a script: each by a key that is drawn, and whether a key was drawn is told too."""
    draw = random.Random(7)
    lines, size, seen = list(head), sum(len(line) + 1 for line in head), set()
    while True:
        for key in draw.choices(KEYS, WEIGHTS, k=4096):
            line = next_line(draw, key, seen)
            if size + len(line) + 1 > LIMIT:
                return lines
            lines.append(line)
            size += len(line) + 1


def through_a_rule():
    """A key's first line inserts it, a later one gets it or inserts it again (and is refused)."""

    def next_line(draw, key, seen):
        again = key in seen and draw.random() < 0.9
        seen.add(key)
        return f"get c {key}" if again else f"insert c {key} value{key}"

    return whole(["keyspace commerce", "table commerce corder", "rule c commerce.corder"], next_line)


def all_operations():
    """A row that isn't there is inserted; else half of the lines get it, and the others change it or take it away."""
    tables = [f"orders{number}" for number in range(16)]
    head = ["keyspace commerce", "keyspace customer"]
    head += [f"table {'commerce' if number % 2 == 0 else 'customer'} {table}" for number, table in enumerate(tables)]

    def next_line(draw, key, seen):
        table = draw.choice(tables)
        if (table, key) not in seen:
            seen.add((table, key))
            return f"insert {table} {key} value{key}"
        verb = draw.choices(["get", "update", "append", "delete"], [50, 25, 15, 10])[0]
        if verb == "delete":
            seen.discard((table, key))
        return {
            "get": f"get {table} {key}",
            "update": f"update {table} {key} other{key}",
            "append": f"append {table} {key} x",
            "delete": f"delete {table} {key}",
        }[verb]

    return whole(head, next_line)


def seconds(program, text):
    """The least processor time of five runs."""
    times = []
    for _ in range(5):
        before = resource.getrusage(resource.RUSAGE_CHILDREN)
        subprocess.run([program, "run"], input=text, stdout=subprocess.DEVNULL, check=True)
        after = resource.getrusage(resource.RUSAGE_CHILDREN)
        times.append(after.ru_utime + after.ru_stime - before.ru_utime - before.ru_stime)
    return min(times)


def main():
    top = pathlib.Path(__file__).resolve().parent.parent
    program = sys.argv[1] if len(sys.argv) > 1 else str(top / "crates/mt_program/out/mt_program")
    empty = seconds(program, b"")
    print(f"empty script: {empty * 1000:.2f} ms")
    for title, lines in (("through a rule", through_a_rule()), ("all operations", all_operations())):
        print(title)
        for part, name in ((4, "a quarter"), (2, "a half"), (1, "the whole")):
            some = lines[: len(lines) // part]
            took = seconds(program, ("\n".join(some) + "\n").encode()) - empty
            print(f"  {name}: {len(some)} lines in {took * 1000:.1f} ms, {len(some) / took / 1e6:.2f} million lines a second")


if __name__ == "__main__":
    main()
