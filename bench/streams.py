#!/usr/bin/env python3
"""Measures how long a stream takes to copy rows, and then to follow as many entries of the log.

bench/streams.py [PROGRAM]: PROGRAM is crates/mt_workflow_tests/out/mt_workflow_tests_tests where none is named, which `rt test` in
crates/mt_workflow_tests leaves.

Of a quarter of a million, half a million and a million rows with values of 16 bytes: a client inserts them at the source, a stream
copies them to the sink, the client updates each, and the stream follows these entries, by advances of 1,000 at most. The same inserts
and updates without an advance are measured too; the difference is the stream's. Each is run five times, and the least processor time
counts, that of the system included. Each run also looks that the stream is level at the end, and how many entries the sink's log has.
"""
import os
import pathlib
import resource
import subprocess
import sys

SIZES = (250_000, 500_000, 1_000_000)


def seconds(program, test, rows):
    """The least processor time of five runs of a test with so many rows."""
    times = []
    variables = dict(os.environ, MT_ROWS=str(rows))
    for _ in range(5):
        before = resource.getrusage(resource.RUSAGE_CHILDREN)
        subprocess.run([program, f"sizes::{test}"], stdout=subprocess.DEVNULL, env=variables, check=True)
        after = resource.getrusage(resource.RUSAGE_CHILDREN)
        times.append(after.ru_utime + after.ru_stime - before.ru_utime - before.ru_stime)
    return min(times)


def main():
    top = pathlib.Path(__file__).resolve().parent.parent
    program = sys.argv[1] if len(sys.argv) > 1 else str(top / "crates/mt_workflow_tests/out/mt_workflow_tests_tests")
    for rows in SIZES:
        written, streamed = seconds(program, "many_rows_are_written", rows), seconds(program, "many_rows_are_streamed", rows)
        took = streamed - written
        print(
            f"{rows} rows copied and {rows} entries followed: {took * 1000:.0f} ms, {took / (2 * rows) * 1e9:.0f} ns for each;"
            f" the client's {2 * rows} writes beside: {written * 1000:.0f} ms"
        )
    most = resource.getrusage(resource.RUSAGE_CHILDREN).ru_maxrss
    print(f"at most {most // 1024} MB of memory")


if __name__ == "__main__":
    main()
