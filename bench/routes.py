#!/usr/bin/env python3
"""Measures how many look-ups of routes are made in a second, by routers and behind a lock, with one, two and four readers.

bench/routes.py [PROGRAM]: PROGRAM is crates/mt_routes_tests/out/mt_routes_tests_tests where none is named, which `rt test` in
crates/mt_routes_tests leaves.

There are 4,096 rules, and each reader looks their names up one after the other, again and again, in a thread of its own: by a router, or
in the same maps behind a Mutex that all readers share. Each is run five times, and the least time by the clock counts, less that of a run
without look-ups. Each run also looks that each name leads somewhere.
"""
import os
import pathlib
import subprocess
import sys
import time

LOOK_UPS = 2_000_000
WAYS = (("by routers", "look_ups_by_routers"), ("behind a lock", "look_ups_behind_a_lock"))


def seconds(program, test, readers, look_ups):
    """The least time by the clock of five runs of a test with so many readers, who make so many look-ups each."""
    variables = dict(os.environ, MT_READERS=str(readers), MT_LOOK_UPS=str(look_ups))
    times = []
    for _ in range(5):
        start = time.perf_counter()
        subprocess.run([program, f"speed::{test}"], stdout=subprocess.DEVNULL, env=variables, check=True)
        times.append(time.perf_counter() - start)
    return min(times)


def main():
    top = pathlib.Path(__file__).resolve().parent.parent
    program = sys.argv[1] if len(sys.argv) > 1 else str(top / "crates/mt_routes_tests/out/mt_routes_tests_tests")
    for way, test in WAYS:
        for readers in (1, 2, 4):
            took = seconds(program, test, readers, LOOK_UPS) - seconds(program, test, readers, 0)
            print(f"{way}, {readers} readers: {readers * LOOK_UPS / took / 1e6:.2f} million look-ups a second", flush=True)


if __name__ == "__main__":
    main()
