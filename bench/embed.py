#!/usr/bin/env python3
"""Measures what a call of the library costs, beside a line within `mt run`.

bench/embed.py [--seconds] [--bytes N] [--library FOLDER] [PROGRAM]: PROGRAM is crates/mt_program/out/mt_program where none is named, and the library is
the libmt.a of that folder, or of out/ where none is named, as `tools/build library` leaves it.

The inputs are those of bench/whole.py that are scripts, of N bytes at most (65,536). embed/run.c plays each by the library: line by line, where each line is a
call of mt_command with its room in place, and as a whole, one call of mt_run. Instructions are counted (`valgrind --tool=callgrind`), or with
`--seconds` the least processor time of fifteen runs; those of an empty script are taken off. Told are those of a line within `mt run`, and how many
times as many it takes by the library. The outputs have to be equal, byte for byte.
"""
import argparse
import os
import pathlib
import random
import subprocess
import sys
import tempfile

sys.dont_write_bytecode = True
import whole

TOP = pathlib.Path(__file__).resolve().parent.parent
# callgrind counts an instruction that repeats once for each byte that it fills, so that the C library's memset is kept from it
NO_REPEATS = "glibc.cpu.x86_rep_stosb_threshold=1073741824:glibc.cpu.x86_rep_movsb_threshold=1073741824"


def runner(library, room):
    """The program embed/run.c over a library."""
    run = room / "run"
    subprocess.run(["gcc", "-O2", f"-I{TOP / 'embed'}", "-o", run, TOP / "embed/run.c", library / "libmt.a"], check=True)
    return str(run)


def measured(is_seconds, runs, text):
    """What each run takes, of a program with its words: nanoseconds, or instructions."""
    if is_seconds:
        return [whole.seconds([program], words, text)[0] * 1e9 for program, words in runs]
    os.environ["GLIBC_TUNABLES"] = NO_REPEATS
    return [whole.instructions(program, words, text) for program, words in runs]


def main():
    words = argparse.ArgumentParser(description="Measures what a call of the library costs.")
    words.add_argument("--seconds", action="store_true")
    words.add_argument("--bytes", type=int, default=1 << 16)
    words.add_argument("--library", type=pathlib.Path, default=TOP / "out")
    words.add_argument("program", nargs="?", default=str(TOP / "crates/mt_program/out/mt_program"))
    asked = words.parse_args()
    whole.LIMIT = asked.bytes
    unit = "nanoseconds" if asked.seconds else "instructions"
    with tempfile.TemporaryDirectory() as folder:
        run, keyspaces = runner(asked.library, pathlib.Path(folder)), whole.SCRIPT[1:]
        runs = [(asked.program, whole.SCRIPT), (run, keyspaces), (run, ["-w", *keyspaces])]
        empty = measured(asked.seconds, runs, b"")
        for title, command, make in whole.INPUTS:
            if command != whole.SCRIPT:
                continue
            text = make(random.Random(whole.SEED))
            if len({whole.output(program, words, text) for program, words in runs}) != 1:
                sys.exit(f"{title}: the outputs differ")
            lines = len(text.splitlines())
            own, *others = [(took - least) / lines for took, least in zip(measured(asked.seconds, runs, text), empty)]
            print(f"{title}: {lines} lines, {own:.0f} {unit} a line; by mt_command {others[0] / own:.2f} times as many, by mt_run {others[1] / own:.2f}", flush=True)


if __name__ == "__main__":
    main()
