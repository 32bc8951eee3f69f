#!/usr/bin/env python3
"""Tells where the instructions of many short moves go: by command, or by what is done.

bench/profile.py [--shares] [PROGRAM ..]: PROGRAM is crates/mt_program/out/mt_program where none is named.

By command: of each verb of that input the first twelve lines behind the first thousand are measured, each by the instructions of a run of all
lines up to it less those of a run without it (`valgrind --tool=callgrind`); the mean of these is told, and each verb's share of all.

`--shares`: the shares of functions that copy, fill, compare names, look something up by a hash, and ask for memory or give it back, of a run
of the first 9,000 lines, and how many lines of code and of data the first-level caches miss (`valgrind --tool=cachegrind`, caches of 32 KiB).
A function that is inlined counts where it is inlined, so that the true shares are higher.
"""
import argparse
import collections
import pathlib
import random
import re
import subprocess
import tempfile

import whole

BEHIND, LINES, MANY = 1000, 12, 9000
CACHES = ["--cache-sim=yes", *(f"--{kind}1=32768,8,64" for kind in "ID")]  # of code, and of data
GROUPS = (
    ("copies, by calls", r"memcpy|memmove"),
    ("fills with zeros, by calls", r"memset"),
    ("comparisons of names", r"TextPartialEq|memcmp"),
    ("look-ups by hashes", r"indexmap|::hash|find_slot|place_by_hash"),
    ("memory", r"malloc|realloc|free|rattle_alloc|rattle_dealloc"),
)


def counted(program, lines):
    """The instructions of a run of some lines."""
    return whole.instructions(program, whole.SCRIPT, b"\n".join(lines) + b"\n")


def some_of_each(lines):
    """The places of the first lines of each verb behind those that are passed over."""
    found = collections.defaultdict(list)
    for place in range(BEHIND, len(lines)):
        verb = lines[place].split()[0].decode()
        if len(found[verb]) < LINES:
            found[verb].append(place)
    return found


def by_command(programs, lines):
    """Prints what a line of each verb takes, and its share of the first lines."""
    many = collections.Counter(line.split()[0].decode() for line in lines[BEHIND:MANY])
    means = {}
    for verb, places in some_of_each(lines).items():
        means[verb] = [sum(counted(it, lines[: place + 1]) - counted(it, lines[:place]) for place in places) / len(places) for it in programs]
    totals = [sum(many[verb] * mean[at] for verb, mean in means.items()) for at in range(len(programs))]
    for verb, mean in sorted(means.items(), key=lambda it: -many[it[0]] * it[1][0]):
        told = ", ".join(f"{took:,.0f} ({100 * many[verb] * took / total:.0f} %)" for took, total in zip(mean, totals))
        print(f"{verb}: {told}")


def shares(program, text):
    """Prints the shares of some kinds of functions, and the misses of the first-level caches."""
    with tempfile.TemporaryDirectory() as folder:
        for tool in ("callgrind", "cachegrind"):
            command = ["valgrind", f"--tool={tool}", f"--{tool}-out-file={folder}/{tool}", *CACHES * (tool == "cachegrind"), program, *whole.SCRIPT]
            done = subprocess.run(command, input=text, stdout=subprocess.DEVNULL, stderr=subprocess.PIPE, check=True)
        listed = subprocess.run(["callgrind_annotate", "--threshold=100", f"{folder}/callgrind"], stdout=subprocess.PIPE, check=True, text=True).stdout
    taken = collections.Counter()
    for count, name in re.findall(r"^\s*([\d,]+) \([^)]*\)\s+(\S.*)$", listed, re.MULTILINE):
        kind = "all" if name == "PROGRAM TOTALS" else next((kind for kind, word in GROUPS if re.search(word, name)), "the rest")
        taken[kind] += int(count.replace(",", ""))
    for kind, count in taken.most_common():
        print(f"{kind}: {count / 1e6:.2f} million, {100 * count / taken['all']:.0f} %")
    for letter, kind in (("I", "code"), ("D", "data")):
        missed = re.search(rf"{letter}1 +misses: +([\d,]+)".encode(), done.stderr).group(1).decode()
        print(f"misses of the first-level cache, {kind}: {missed}")


def main():
    top = pathlib.Path(__file__).resolve().parent.parent
    words = argparse.ArgumentParser(description=__doc__.split("\n")[0])
    words.add_argument("programs", nargs="*", default=[str(top / "crates/mt_program/out/mt_program")])
    words.add_argument("--shares", action="store_true")
    asked = words.parse_args()
    lines = whole.many_short_moves(random.Random(whole.SEED)).splitlines()
    if not asked.shares:
        by_command(asked.programs, lines)
        return
    for program in asked.programs:
        print(program)
        shares(program, b"\n".join(lines[:MANY]) + b"\n")


if __name__ == "__main__":
    main()
