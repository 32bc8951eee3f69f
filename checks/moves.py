"""A move that controllers take up from each other, as scripts of which each line has its answer by the definitions (checks/definitions.py)."""
import itertools
import os
import pickle
import subprocess

import definitions
from ranges import ranges_of, stream_in

KEYSPACES = ["commerce", "customer"]
SETS = [frozenset(them) for n in range(4) for them in itertools.combinations(definitions.TYPES, n)]

UNSHARDED, TWO_SHARDS = ["-"], ["-80", "80-"]
HIGH = 2**63 + 2  # a key of the second shard of two


def setting(shards):
    """What is there before a move to a target with these shards."""
    return f"""keyspace commerce
keyspace customer {",".join(shards)}
table commerce corder
table commerce cart
table commerce spare
rule commerce.corder commerce.corder
rule free commerce.spare
insert corder 1 a
insert corder {HIGH} b
insert cart 1 c""".splitlines()


def copies(shards):
    """The turns that copy the rows of the setting."""
    return [f"advance mv {stream_in(shards, shard, 'forward')} 3 100" for shard in range(len(shards))]


def copied(shards):
    """A move that has copied all rows."""
    return [*setting(shards), "create mv commerce customer corder,cart", *copies(shards)]


ROWS = [("corder", 1), ("corder", HIGH), ("corder", 3), ("cart", 1)]
LOOK = [
    *("show mv", "dump", "rules", "get free 1"),
    *(f"get {side}{table}@{of} {key}" for table, key in ROWS for side in ("", "commerce.", "customer.") for of in definitions.TYPES),
    *(f"get {side}{table} {key}" for table, key in ROWS for side in ("", "commerce.", "customer.")),
    *(f"at {side}.{table}@{of} get {key}" for table, key in ROWS for side in KEYSPACES for of in definitions.TYPES),
]


GLANCE = ["show mv", "dump"]  # the same of fewer names
for table, key in ROWS:
    GLANCE += [f"get {table} {key}", f"get customer.{table}@rdonly {key}", *(f"at {side}.{table}@replica get {key}" for side in KEYSPACES)]


class Script:
    """Lines with their answers by the definitions, and the state that they lead to."""

    def __init__(self, lines=()):
        self.state, self.lines, self.told = definitions.Plain(KEYSPACES), [], []
        self.ask(*lines)

    def branch(self):
        """The same lines, which others may follow than here."""
        return pickle.loads(pickle.dumps(self))

    def ask(self, *lines):
        """Asks for lines; what the last one is answered."""
        for line in lines:
            self.lines.append(line)
            self.told.append(self.state.answer(line))
        return self.told[-1] if self.told else None

    @property
    def workflow(self):
        return next((w for w in self.state.lives if w.name == "mv"), None)

    @property
    def way(self):
        return self.workflow.way if self.workflow else None

    def advance(self, stream):
        """A turn of the stream of each shard, where it runs."""
        shards = ranges_of(self.workflow.cuts)
        for shard in range(len(shards)):
            slot = self.workflow.slot(stream, shard)
            if slot and slot[0] == "running":
                self.ask(f"advance mv {stream_in(shards, shard, stream)} {slot[1]} 100")

    def step(self):
        """The next step; before one that may find writes missing, a turn of the stream that brings them."""
        if self.way.next_step() in (definitions.READS, definitions.CATCH_UP):
            self.advance("back" if self.way.back else "forward")
        self.ask(f"step mv {self.way.done}")

    def finish(self):
        while self.way:
            self.step()

    def give_up(self):
        while self.way:
            self.ask(f"undo mv {self.way.done}")


def run(program, lines, keyspaces=KEYSPACES):
    """What the program answers to each line, and tells on standard error."""
    with os.fdopen(os.memfd_create("script"), "w+") as script:
        script.write("".join(f"{line}\n" for line in lines))
        script.seek(0)
        ended = subprocess.run([program, "run", *keyspaces], stdin=script, stdout=subprocess.PIPE, stderr=subprocess.STDOUT, text=True, close_fds=False)
    return [*ended.stdout.splitlines(), *[f"status {ended.returncode}"] * bool(ended.returncode)]


def difference(lines, told, got):
    """Where the program's answers first differ from those of the definitions, or nothing."""
    if got == told:
        return None
    at = next((at for at, pair in enumerate(zip(told, got)) if pair[0] != pair[1]), min(len(told), len(got)))
    answer, wanted = "".join(got[at : at + 1])[:300], "".join(told[at : at + 1])[:300]
    return f"{''.join(lines[at : at + 1])}: {answer}; wanted {wanted}\n    " + " / ".join(lines[: at + 1])
