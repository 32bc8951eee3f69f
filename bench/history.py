#!/usr/bin/env python3
"""Tells what changes of the sources brought, in instructions.

bench/history.py [--jobs N] [--keep FOLDER] REVISION ..: of each revision of this repository the program is built without proofs
(`tools/unproved.py`), and its instructions on the inputs of `bench/whole.py` are counted, the input whole, less those of an empty script.
For each revision a row is printed: what its commit says, and millions of instructions. A change is measured by the revision before it and by
its own. A build takes some three minutes and a count less than one; N of each are made at once, one if none is told. `--keep` keeps the
programs in a folder, under the names of their revisions.

What a revision's program prints has to equal what those of the others print.
"""
import argparse
import concurrent.futures
import hashlib
import pathlib
import random
import subprocess
import sys
import tempfile

import whole

TOP = pathlib.Path(__file__).resolve().parent.parent
sys.path.append(str(TOP / "tools"))
sys.dont_write_bytecode = True
import unproved


def said(revision):
    """The short name of a revision, and what its commit says."""
    words = ["git", "show", "-s", "--format=%h|%s", revision]
    return subprocess.run(words, cwd=TOP, stdout=subprocess.PIPE, check=True, text=True).stdout.strip().split("|", 1)


def built(revision, room):
    """The program of a revision, which is built unless it is there."""
    program = room / said(revision)[0]
    if not program.exists():
        with tempfile.TemporaryDirectory() as folder:
            subprocess.run(["git", "clone", "--quiet", "--no-checkout", TOP, folder], check=True)
            subprocess.run(["git", "checkout", "--quiet", revision], cwd=folder, check=True)
            unproved.build(pathlib.Path(folder), program)
    return program


def measured(revision, room, inputs):
    """Millions of instructions on each input, and a digest of all that was printed."""
    program, printed = built(revision, room), hashlib.sha256()
    empty = whole.instructions(program, whole.SCRIPT, b"")
    counts = [(whole.instructions(program, words, text) - empty) / 1e6 for words, text in inputs]
    for words, text in inputs:
        printed.update(whole.output(program, words, text))
    return counts, printed.hexdigest()


def main():
    asked = argparse.ArgumentParser(description=__doc__.split("\n")[0])
    asked.add_argument("--jobs", type=int, default=1)
    asked.add_argument("--keep", type=pathlib.Path)
    asked.add_argument("revisions", nargs="+")
    given = asked.parse_args()
    inputs = [(words, make(random.Random(whole.SEED))) for _, words, make in whole.INPUTS]
    print("| revision | what its commit says | " + " | ".join(name for name, _, _ in whole.INPUTS) + " |")
    print("|---|---|" + "---|" * len(inputs))
    digests = set()
    with tempfile.TemporaryDirectory() as folder, concurrent.futures.ThreadPoolExecutor(given.jobs) as jobs:
        room = (given.keep or pathlib.Path(folder)).absolute()
        room.mkdir(parents=True, exist_ok=True)
        for revision, (counts, digest) in zip(given.revisions, jobs.map(lambda it: measured(it, room, inputs), given.revisions)):
            name, words = said(revision)
            print(f"| {name} | {words} | " + " | ".join(f"{it:.1f}" for it in counts) + " |", flush=True)
            digests.add(digest)
    if len(digests) > 1:
        raise SystemExit("the outputs of these revisions differ")


if __name__ == "__main__":
    main()
