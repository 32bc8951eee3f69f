#!/usr/bin/env python3
"""Measures a desk: calls of one, two and four threads at once, the memory that they take and how they are gathered, and tellings of routes.

bench/desk.py [--beside OTHER] [--processor | --instructions] [--calls N] [PROGRAM]: PROGRAM is crates/mt_desk_tests/out/mt_desk_tests_tests where none is
named, which `rt test` in crates/mt_desk_tests leaves; `tools/unproved.py --tests mt_desk_tests PROGRAM` builds one without proofs.

Each thread inserts rows with values of 16 bytes and reads each behind that, by N calls of its own pass (100,000 where no number is told); then
all passes are gathered. A telling is measured with 16, 1,000 and 4,096 rules, of which none was edited since the telling before, or one; the
first one, which is of all rules, isn't counted. The tests have no clock, so that each run is made with what is measured and without it, and the difference of the least times by the clock
counts, of five runs each, in turn with those of the other program. What a call's memory takes at the end to be given back is in its time. The bytes
of a call are what the most memory of a run grows by: row, log, history and pass. `--processor` takes the time of all processors in place of that by
the clock, which says more where the machine is shared; `--instructions` counts instructions, by `valgrind --tool=callgrind`: these repeat, but what
the system does for a program isn't in them.

OTHER is an unverified program that does the same and is measured in the same way: `OTHER desk THREADS CALLS TELLS RULES EDITS GATHERS` opens such a
desk, has so many calls made by each thread, sets so many rules beside those of the workflow, tells so often, the first times each behind an edit,
gathers the passes or doesn't, and prints the number of all rules (`rules N`). One that knows none of the last three words gathers in each run and prints no such
number (`bench/desk.patch` mends that): then a call is told together with its gathering, and tellings of ours alone.
"""
import argparse
import collections
import os
import pathlib
import re
import resource
import subprocess
import time

TEST = "speed::many_calls_are_gathered"
OF_THE_WORKFLOW = 12  # how many of the rules are the workflow's
NOTHING = {"threads": 1, "calls": 0, "rules": 0, "edits": 0, "tells": 0, "gathers": 0}


class Program:
    """The tests of the desk, or the other program."""

    def __init__(self, path, is_other):
        self.path, self.is_other = path, is_other

    def begun(self, load, by=()):
        """A run of a load: so much of each."""
        words, variables = [TEST], dict(os.environ)
        if self.is_other:
            words = ["desk", *(str(load[name]) for name in ("threads", "calls", "tells", "rules", "edits", "gathers"))]
        else:
            variables |= {f"MT_{name.upper()}": str(many) for name, many in load.items()}
        return subprocess.Popen([*by, self.path, *words], env=variables, stdout=subprocess.PIPE, stderr=subprocess.STDOUT, text=True)

    def ended(self, run):
        """What a run said."""
        said, _ = run.communicate()
        if run.returncode:
            raise SystemExit(f"{self.path}: {said}")
        return said

    def seconds(self, load):
        """The time of a run by the clock."""
        start = time.perf_counter()
        self.ended(self.begun(load))
        return time.perf_counter() - start

    def processor_seconds(self, load):
        """The processor time of a run, that of the system included."""
        before = resource.getrusage(resource.RUSAGE_CHILDREN)
        self.ended(self.begun(load))
        after = resource.getrusage(resource.RUSAGE_CHILDREN)
        return after.ru_utime + after.ru_stime - before.ru_utime - before.ru_stime

    def instructions(self, load):
        """The instructions of a run."""
        said = self.ended(self.begun(load, ("valgrind", "--tool=callgrind", "--callgrind-out-file=/dev/null")))
        return int(re.search(r"Collected : (\d+)", said)[1])

    def knows_all(self):
        """Whether it knows each word of a load."""
        return not self.is_other or re.search(r"rules \d+", self.ended(self.begun(NOTHING))) is not None

    def memory(self, load):
        """The most bytes of five runs: what the kernel last says of each before it ends."""
        most = 0
        for run in (self.begun(load) for _ in range(5)):
            while run.poll() is None:
                found = re.search(r"VmHWM:\s+(\d+)", pathlib.Path(f"/proc/{run.pid}/status").read_text())
                most = max(most, int(found[1]) * 1024 if found else 0)
            self.ended(run)
        return most


# What a run costs, how many runs there are, of which the least counts, how much all tellings of a run cost at least, and units with their scales.
Measure = collections.namedtuple("Measure", "cost runs enough call telling")
BY_THE_CLOCK = Measure(Program.seconds, 5, 0.1, ("nanoseconds", 1e9), ("microseconds", 1e6))
BY_PROCESSOR = BY_THE_CLOCK._replace(cost=Program.processor_seconds)
BY_COUNT = Measure(Program.instructions, 1, 1e6, ("instructions", 1), ("instructions", 1))


def least(measure, loads):
    """The least costs of programs with the loads of each, all in turn."""
    costs = [[] for _ in loads]
    for _ in range(measure.runs):
        for taken, (program, load) in zip(costs, loads):
            taken.append(measure.cost(program, load))
    return [min(taken) for taken in costs]


def of_calls(measure, programs, threads, calls):
    """Of each program the cost of a call, that of its gathering, and its bytes."""
    none = NOTHING | {"threads": threads}
    asked = none | {"calls": calls}
    costs = iter(least(measure, [(it, load) for it in programs for load in (none, asked, asked | {"gathers": 1})]))
    many, figures = threads * calls, []
    for program in programs:
        without, with_calls, with_all = (next(costs) / many * measure.call[1] for _ in range(3))
        figures.append((with_calls - without, with_all - with_calls, (program.memory(asked) - program.memory(none)) / many))
    return [list(figure) for figure in zip(*figures)]


def tellings(measure, program, rules, is_edited):
    """Loads with one telling, which is of all rules, and with more that cost enough, and how many more."""
    many = 4
    while True:
        without = NOTHING | {"rules": rules - OF_THE_WORKFLOW, "edits": (many + 1) * is_edited, "tells": 1}
        both = without, without | {"tells": many + 1}
        if many > 1 << 20 or measure.cost(program, both[1]) - measure.cost(program, both[0]) > measure.enough:
            return both, many
        many *= 4


def of_tellings(measure, programs, rules, is_edited):
    """Of each program the cost of a telling."""
    found = [tellings(measure, program, rules, is_edited) for program in programs]
    costs = iter(least(measure, [(program, load) for program, (both, _) in zip(programs, found) for load in both]))
    return [-(next(costs) - next(costs)) / many * measure.telling[1] for _, many in found]


def told(what, figures, form=",.0f"):
    """A figure of ours, and if there is another program its own, with the ratio."""
    ours, *others = figures
    return f"{what} {ours:{form}}" + "".join(f" (the other one {other:{form}}, ratio {ours / other:.2f})" for other in others)


def main():
    top = pathlib.Path(__file__).resolve().parent.parent
    words = argparse.ArgumentParser(description=__doc__.split("\n")[0])
    words.add_argument("program", nargs="?", default=str(top / "crates/mt_desk_tests/out/mt_desk_tests_tests"))
    words.add_argument("--beside")
    kind = words.add_mutually_exclusive_group()
    kind.add_argument("--processor", dest="measure", action="store_const", const=BY_PROCESSOR, default=BY_THE_CLOCK)
    kind.add_argument("--instructions", dest="measure", action="store_const", const=BY_COUNT)
    words.add_argument("--calls", type=int, default=100_000)
    asked = words.parse_args()
    measure = asked.measure
    programs = [Program(asked.program, False)] + ([Program(asked.beside, True)] if asked.beside else [])
    knowing = [it for it in programs if it.knows_all()]
    for threads in (1, 2, 4):
        costs, gathered, memory = of_calls(measure, programs, threads, asked.calls)
        parts = [told(measure.call[0], costs), told("gathered", gathered)]
        if len(knowing) < len(programs):
            parts = [told(f"gathered, {measure.call[0]}", map(sum, zip(costs, gathered)))]
        print(f"calls of {threads} at once:", ", ".join([*parts, told("bytes", memory)]), flush=True)
    for rules in (16, 1000, 4096):
        for is_edited, edited in ((False, "none"), (True, "one")):
            costs = of_tellings(measure, knowing, rules, is_edited)
            print(f"a telling of {rules} rules, {edited} edited:", told(measure.telling[0], costs, ",.1f"), flush=True)


if __name__ == "__main__":
    main()
