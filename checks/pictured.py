"""What a picture has to show of a script, by the definitions (checks/definitions.py), and random scripts to draw. Nothing of it asks the program."""
import random

import definitions
from ranges import bound_value, ranges_of, stream_in

TYPES = definitions.TYPES
WATCHERS = ["customer", "archive", "commerce"]
MOST_AT_ONCE = 65535
ODD_LINES = {"hello <world> & 'you' \"there\"": "refused X1 BadLine", "insert corder x y": "refused X1 BadLine", "get <corder> 1": "refused N3 BadByte"}
SHARDS = ["-", "-80,80-", "-40,40-80,80-"]


class Told:
    """Lines with their answers by the definitions, and the state behind each."""

    def __init__(self, watchers):
        self.state, self.lines, self.answers, self.states = definitions.Plain(watchers), [], [], []

    def ask(self, line):
        self.lines.append(line)
        self.answers.append(ODD_LINES.get(line) or self.state.answer(line))
        self.states.append(self.state.copied())

    def before(self, number):
        """The state before the line of a number."""
        return self.states[number - 2]


# ---- what is so of a move


def live_of(state, name):
    return next((w for w in state.lives if w.name == name), None)


def first_keys(shards):
    return {shard: bound_value(shard.partition("-")[0]) for shard in shards}


def server(state, table, type_of, key):
    """Who answers by a table's name: the table that it leads to, or the refusal."""
    answer = state.answer(f"get {table}@{type_of} {key}")
    return answer if answer.startswith("refused") else ".".join(state.look_up(table, type_of))


def at_primary(state, keyspace, table, key):
    answer = state.answer(f"at {keyspace}.{table} get {key}")
    return answer if answer.startswith("refused") else "open"


def by_name(state, move):
    keys = first_keys(move["shards"])
    return {table: {of: {shard: server(state, table, of, key) for shard, key in keys.items()} for of in TYPES} for table in move["tables"]}


def primaries(state, move):
    def at(side, keys):
        return {table: {shard: at_primary(state, side, table, key) for shard, key in keys.items()} for table in move["tables"]}

    return {move["source"]: at(move["source"], {"-": 0}), move["target"]: at(move["target"], first_keys(move["shards"]))}


def streams(state, w):
    """The streams of a live workflow, and what a turn of each that runs would do."""
    found = []
    for stream in ("forward", "back"):
        for lane, shard in zip(w.lanes, ranges_of(w.cuts)):
            slot = w.slot(stream, lane.shard)
            if slot:
                turn = state.copied().answer(f"advance {w.name} {stream_in(ranges_of(w.cuts), lane.shard, stream)} {slot[1]} {MOST_AT_ONCE}").split()
                does = [int(turn[1]), int(turn[3])] if slot[0] == "running" else [None, None]
                copied = lane.copied == "ended" if stream == "forward" else None
                found.append([stream, shard, *slot, copied, *does])
    return found


def part(state, move):
    """What a move has of the topology."""
    keys = {key for table in move["tables"] for key in definitions.twelve_keys(move["source"], move["target"], table)}
    rules = [it for it in state.served_rules() if it["from_table"] in keys]
    sides = [(side, table) for side in (move["source"], move["target"]) for table in move["tables"]]
    denied = [w.is_denied(side, definitions.DENY, definitions.ALLOW) for w in state.lives for side, table in sides if table in w.tables and side in w.sides()]
    return rules, [state.has_table(*it) for it in sides], denied


def way_back(state, w):
    """The lines that lead back, their answers up to the first that is refused, and the state behind them."""
    if w.way:
        lines = [f"undo {w.name} {done}" for done in range(w.way.done, 0, -1)] or [f"undo {w.name} 0"]
    else:
        lines = [f"reverse {w.name} all"] if w.switched else [f"cancel {w.name}"]
    behind, asked, answers = state.copied(), [], []
    for line in lines:
        asked.append(line)
        answers.append(behind.answer(line))
        if answers[-1] != "ok":
            break
    return asked, answers, behind


def drive(state, line):
    """How many steps a whole switch takes before one is refused, of how many, and the types that it changes; `state` is that before it."""
    verb, name, types = line.split()
    taken = state.copied()
    if taken.answer(f"begin-{verb} {name} {types}") != "ok":
        return None
    way, length = live_of(taken, name).way, live_of(taken, name).way.length()
    types = [it for it in TYPES if it in way.changed()]
    while live_of(taken, name).way and forward(taken, live_of(taken, name)):
        pass
    done = length if live_of(taken, name).way is None else way.done
    return done, length, types


def forward(state, w):
    """Takes the next step, if need be with turns of the streams; whether it was done."""
    for _ in range(definitions.MOST_TRIES):
        answer = state.answer(f"step {w.name} {w.way.done}")
        if answer != "refused F18 NotLevel":
            break
        stream = "back" if w.way.back else "forward"
        for lane in w.lanes:
            state.turn(w, stream, lane, w.slot(stream, lane.shard)[1], definitions.MOST_AT_ONCE)
    return answer == "ok"


# ---- random scripts


class RandomScript(Told):
    """A script of a move and what goes on meanwhile, drawn so that most lines are answered."""

    def __init__(self, seed, length):
        self.random = random.Random(seed)
        # without a watcher of commerce's primary a whole switch gives itself up
        self.watchers = WATCHERS[: self.random.choice([2, 3, 3])]
        super().__init__(self.watchers)
        shards = self.random.choice(SHARDS)
        for line in self.opening(shards):
            self.ask(line)
        for line in self.random.choice([[], [], [], ["begin-switch mv all"], ["switch mv all"], ["switch mv all", "begin-reverse mv all"]]):
            self.ask(line)
        if live_of(self.state, "mv").way:
            self.take_steps()
        for _ in range(length):
            self.ask(self.next_line())

    def opening(self, shards):
        """A move, mostly copied already."""
        yield from ("keyspace commerce", f"keyspace customer {shards}", "keyspace archive", "table commerce corder", "table commerce cart", "table archive old")
        yield from (f"insert {table} {self.key()} {value}" for table in ("corder", "cart") for value in "ab"[: self.random.randrange(3)])
        yield from ["rule corder commerce.corder"] * self.random.randrange(2)
        yield f"create mv commerce customer {self.random.choice(['corder', 'corder', 'corder,cart'])}"
        if self.random.random() < 0.8:
            yield from [self.turn(live_of(self.state, "mv"), "forward", shard) for shard in range(shards.count(",") + 1)]

    def take_steps(self):
        """Some steps of the way that is open, past its journal in some scripts."""
        for _ in range(self.random.choice([1, 3, 4, 8, 10])):
            w = live_of(self.state, "mv")
            if w.way:
                self.ask(f"step mv {w.way.done}")

    def key(self):
        return self.random.choice([0, 1, 2, 1 << 62, (1 << 63) + 1, (1 << 64) - 1])

    def turn(self, w, stream, shard):
        slot = w.slot(stream, shard)
        position = (slot[1] if slot else 0) + (self.random.random() < 0.05)
        return f"advance {w.name} {stream_in(ranges_of(w.cuts), shard, stream)} {position} {self.random.choice([1, 100, 100])}"

    def next_line(self):
        kinds = [self.row_line, self.row_line, self.turn_line, self.turn_line, self.way_line, self.way_line, self.way_line, self.way_line, self.other_line]
        return self.random.choice(kinds)()

    def row_line(self):
        verb = self.random.choice(["get", "get", "insert", "append", "update", "delete"])
        table = self.random.choice(["corder", "corder", "cart"])
        name = self.random.choice(["", "", "", "commerce.", "customer.", "archive."]) + table
        of = f"@{self.random.choice(TYPES)}" if verb == "get" and self.random.random() < 0.5 else ""
        value = "" if verb in ("get", "delete") else " x"
        if "." in name and self.random.random() < 0.5:
            return f"at {name}{of} {verb} {self.key()}{value}"
        return f"{verb} {name}{of} {self.key()}{value}"

    def workflow(self):
        return self.random.choice(self.state.lives) if self.state.lives else None

    def turn_line(self):
        w = self.workflow()
        if not w:
            return self.other_line()
        runs = [(stream, lane.shard) for stream in ("forward", "back") for lane in w.lanes if (w.slot(stream, lane.shard) or ["none"])[0] == "running"]
        return self.turn(w, *self.random.choice(runs or [("forward", 0)]))

    def way_line(self):
        w = self.workflow()
        if not w:
            return self.other_line()
        if w.way and self.random.random() < 0.85:
            return f"{'undo' if w.way.undoing or self.random.random() < 0.25 else 'step'} {w.name} {w.way.done + (self.random.random() < 0.05)}"
        verb = self.random.choice(["begin-reverse", "reverse"] if w.switched and self.random.random() < 0.7 else ["begin-switch", "switch"])
        return f"{verb} {w.name} {self.random.choice(['all', 'all', 'primary', 'replica', 'replica,rdonly', 'primary,rdonly'])}"

    def other_line(self):
        lines = ["show mv", "rules", "dump", "cancel mv", "complete mv", "create mv commerce customer corder", "create m2 commerce archive cart", "cancel m2"]
        lines += ["switch m2 all", "rule cart archive.old", "rule cart -", "rule corder archive.cart", "table commerce corder", *ODD_LINES]
        return self.random.choice(lines)
