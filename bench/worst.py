#!/usr/bin/env python3
"""Measures lines of scripts that cost as much as a line of their size can, beside the mean line of ordinary scripts.

bench/worst.py [--only CASE] [PROGRAM]: PROGRAM is crates/mt_program/out/mt_program where none is named.

Each case is a state, as large as a script makes it, and some lines that are asked for in it again and again. What these take is counted in instructions
(`valgrind --tool=callgrind`), by a run with them less one without them, and told a byte of the script, and a byte that is read or written. The mean line
is that of the five scripts of `bench/whole.py`, a quarter of their size each: all their instructions by all their bytes. Nothing is drawn at random
here, so that each run measures the same lines.
"""
import argparse
import pathlib
import random
import subprocess

import whole

ORDINARY_BYTES = 262_144
BOTH = whole.SIDES


def names(count, letter="t"):
    return [f"{letter}{number}" for number in range(count)]


def long_names(count):
    return [f"{number:064d}" for number in range(count)]


def move_of(tables):
    """The tables at the source, and the line that creates their move."""
    return [*BOTH, *(f"table commerce {it}" for it in tables)], f"create w commerce customer {','.join(tables)}"


def many_rules(count):
    return [f"rule r{number} a.b" for number in range(count)]


def rules():
    """The line `rules`, with as many rules as there may be."""
    return many_rules(4096), ["rules"] * 8


def rules_with_long_names():
    """The line `rules`, with as many of the longest rules as a script has room for."""
    return [f"rule {number:064d}.{'t' * 64}@replica {'k' * 64}.{'t' * 64}" for number in range(3400)], ["rules"] * 8


def dump():
    """The line `dump`, with as many keyspaces, tables and rules as there may be."""
    head = [f"keyspace {it}" for it in names(32, "k")]
    return [*head, *(f"table {keyspace} {table}" for keyspace in names(32, "k") for table in names(256)), *many_rules(4096)], ["dump"] * 8


def show():
    """`show` of a move of 16 tables with the longest names."""
    head, create = move_of(long_names(16))
    return [*head, create], ["show w"] * 2000


def create_and_cancel():
    """A move of 16 tables is created and cancelled."""
    head, create = move_of(names(16))
    return head, [create, "cancel w"] * 500


def create_and_cancel_of_long_names():
    """The same, with the longest names."""
    head, create = move_of(long_names(16))
    return head, [create, "cancel w"] * 500


def create_without_a_watcher():
    """The create of such a move is refused for its last test but those of room."""
    head, create = move_of(names(16))
    return [*head, "keyspace other"], [create.replace("customer", "other")] * 1000


def switch_and_reverse():
    """All traffic of 16 tables is switched and reversed, in a line each."""
    head, create = move_of(names(16))
    return [*head, create, "advance w forward 0 1"], ["switch w all", "reverse w all"] * 400


def begin_and_undo():
    """A switch of 16 tables is begun, which makes room for all that its undo may need, and closed."""
    head, create = move_of(names(16))
    return [*head, create, "advance w forward 0 1"], ["begin-switch w all", "undo w 0"] * 1000


def steps_and_undos():
    """The steps of a switch of 16 tables up to the journal, and their undos."""
    head, create = move_of(names(16))
    turn = ["begin-switch w all", *(f"step w {it}" for it in range(6)), *(f"undo w {it}" for it in range(6, 0, -1))]
    return [*head, create, "advance w forward 0 1"], turn * 200


def advances_of_one():
    """A long log is read in turns of one entry."""
    head, create = move_of(["t"])
    writes = ["insert t 1 a", *["update t 1 b"] * 30_000]
    return [*head, create, "advance w forward 0 1", *writes], [f"advance w forward {it} 1" for it in range(20_000)]


def advances_by_sixteen():
    """A long log is read whole by each of 16 moves, of which one has the table that is written."""
    head = [*BOTH, *(f"table commerce {it}" for it in names(16))]
    creates = [line for number in range(16) for line in (f"create w{number} commerce customer t{number}", f"advance w{number} forward 0 1")]
    writes = ["insert t0 1 a", *["update t0 1 b"] * 30_000]
    return [*head, *creates, *writes], [f"advance w{number} forward 0 65535" for number in range(16)]


def copies():
    """A large table is moved, copied in one turn and given up, again and again."""
    head, create = move_of(["t"])
    rows = 20_000
    return [*head, *(f"insert t {it} v" for it in range(rows))], [create, f"advance w forward {rows} 65535", "cancel w"] * 4


def falling_keys():
    """Rows are inserted before all others, while there are many."""
    head, _ = move_of(["t"])
    return [*head, *(f"insert t {it} v" for it in range(60_000, 40_000, -1))], [f"insert t {it} v" for it in range(40_000, 20_000, -1)]


def names_in_no_keyspace():
    """A name is looked for in all of 32 keyspaces, which have their tables, and found in none."""
    return [f"keyspace {it}" for it in names(32, "k")] + [f"table {it} t" for it in names(32, "k")], ["get x 1"] * 5000


def rules_that_come_and_go():
    """A rule is set and taken away, beside as many others as there may be."""
    return many_rules(4095), ["rule x a.b", "rule x -"] * 3000


def bad_lines():
    """Lines that are no commands, of two bytes each."""
    return [], ["x"] * 50_000


def ends():
    """A move of 16 tables is completed, there and back."""
    head, _ = move_of(names(16))
    listed = ",".join(names(16))
    there, back = (f"create w {source} {target} {listed}" for source, target in (("commerce", "customer"), ("customer", "commerce")))
    turn = ["advance w forward 0 1", "switch w all", "complete w"]
    return head, [there, *turn, back, *turn] * 100


CASES = (rules, rules_with_long_names, dump, show, create_and_cancel, create_and_cancel_of_long_names, create_without_a_watcher, switch_and_reverse, begin_and_undo)
CASES += (steps_and_undos, advances_of_one, advances_by_sixteen, copies, falling_keys, names_in_no_keyspace, rules_that_come_and_go, bad_lines, ends)


def text_of(lines):
    return "".join(f"{line}\n" for line in lines).encode()


def measured(program, head, lines):
    """The instructions of lines behind a head, and how many bytes they print."""
    without, with_them = text_of(head), text_of([*head, *lines])
    if len(with_them) > whole.LIMIT:
        raise SystemExit(f"{len(with_them)} bytes are no script")
    instructions = whole.instructions(program, whole.SCRIPT, with_them) - whole.instructions(program, whole.SCRIPT, without)
    printed = [len(subprocess.run([program, *whole.SCRIPT], input=it, stdout=subprocess.PIPE, check=True).stdout) for it in (with_them, without)]
    return instructions, printed[0] - printed[1]


def mean(program):
    """The instructions a byte of the ordinary scripts, and a byte that is read or written."""
    limit, whole.LIMIT = whole.LIMIT, ORDINARY_BYTES
    totals = [0, 0, 0]
    for _, words, make in whole.INPUTS:
        if words == whole.SCRIPT:
            text = make(random.Random(whole.SEED))
            printed = len(subprocess.run([program, *words], input=text, stdout=subprocess.PIPE, check=True).stdout)
            totals = [sum(pair) for pair in zip(totals, (whole.instructions(program, words, text), len(text), printed))]
    whole.LIMIT = limit
    return totals[0] / totals[1], totals[0] / (totals[1] + totals[2])


def main():
    asked = argparse.ArgumentParser(description=__doc__.split("\n")[0])
    asked.add_argument("--only", choices=[it.__name__ for it in CASES])
    asked.add_argument("program", nargs="?", default=str(pathlib.Path(__file__).resolve().parent.parent / "crates/mt_program/out/mt_program"))
    given = asked.parse_args()
    of_script, of_both = mean(given.program)
    print(f"the mean line: {of_script:.0f} instructions a byte of the script, {of_both:.0f} a byte that is read or written", flush=True)
    print("| lines | bytes a line | instructions a line | a byte of the script | times the mean | bytes printed a line | a byte read or written | times the mean |")
    print("|---|---|---|---|---|---|---|---|")
    for case in CASES:
        if given.only in (None, case.__name__):
            head, lines = case()
            took, printed = measured(given.program, head, lines)
            size = len(text_of(lines))
            by_script, by_both, many = took / size, took / (size + printed), len(lines)
            told = [case.__doc__.rstrip("."), f"{size / many:.0f}", f"{took / many:,.0f}", f"{by_script:,.0f}", f"{by_script / of_script:,.1f}", f"{printed / many:,.0f}"]
            print("| " + " | ".join([*told, f"{by_both:,.0f}", f"{by_both / of_both:,.1f}"]) + " |", flush=True)


if __name__ == "__main__":
    main()
