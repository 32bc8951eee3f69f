"""What each line of a script is answered, computed from the definitions of crates/mt_plain/specs, each of which has its function here.

Nothing of it asks the program. Memory is enough, and no watcher refuses. Lines are well formed, but for their key ranges: names, numbers and types
aren't tested.
"""
import functools
import json
import pickle
from dataclasses import dataclass, field

from ranges import Refused, ranges_of, read_range, read_shards, refuse_if, shard_of

TYPES = ("primary", "replica", "rdonly")
MOST_KEYSPACES, MOST_TABLES, MOST_RULES, MOST_WORKFLOWS, MOST_JOURNAL, MOST_TRIES, MOST_AT_ONCE = 32, 256, 4096, 16, 4096, 64, 100

READS, DENY, REFRESH_SOURCE, CATCH_UP, STOP, CREATE_BACK, JOURNAL, ALLOW, REFRESH_TARGET, WRITE_RULES, START_BACK, FREEZE = range(12)

F1, F2, F3, F4, F5 = "F1 NoKeyspace", "F2 NoTable", "F3 Denied", "F4 RowExists", "F5 NoRow"
F6, F7, F8, F9, F10 = "F6 WorkflowExists", "F7 NoWorkflow", "F8 TableInWorkflow", "F9 RuleConflict", "F10 TargetHasTable"
F11, F12, F13, F14 = "F11 SameKeyspace", "F12 NoTables", "F13 UnderWay", "F14 NothingUnderWay"
F15, F16, F17, F18 = "F15 NothingToSwitch", "F16 NothingToReverse", "F17 Copying", "F18 NotLevel"
F19, F20, F21, F22 = "F19 PastJournal", "F20 TrafficSwitched", "F21 NotAllSwitched", "F22 RuleOwned"
F24, F25, F26, F27 = "F24 NoWatcher", "F25 Stale", "F26 Stopped", "F27 Full"
F28, F29, F30 = "F28 Undoing", "F29 TooLong", "F30 Exists"
F32, F33 = "F32 NoShard", "F33 ShardedSource"
NOT_FOUND, AMBIGUOUS = "T2 NoTable", "T3 Ambiguous"


# ---- ways and workflows


@dataclass
class Way:
    """A way that is open; `done` counts the places of its plan, where the refresh of the target has one for each shard."""

    back: bool
    shards: int
    before: frozenset
    after: frozenset
    done: int = 0
    undoing: bool = False

    def changed(self):
        return self.before ^ self.after

    def first_step(self):
        return READS if self.changed() - {"primary"} else DENY

    def behind_last(self):
        return FREEZE + 1 if "primary" in self.changed() else READS + 1

    def repeated_step(self):
        """The refresh of the target."""
        return REFRESH_SOURCE if self.back else REFRESH_TARGET

    def place_of_step(self, step, shard=0):
        """The place of a step, which of the refresh of the target is that of a shard."""
        repeated = self.repeated_step()
        return step + (shard if step == repeated else self.shards - 1 if step > repeated else 0)

    def length(self):
        """How many places the plan has."""
        return self.place_of_step(self.behind_last()) - self.first_step()

    def next_place(self):
        return self.first_step() + self.done

    def next_step(self):
        place, repeated = self.next_place(), self.repeated_step()
        return place if place <= repeated else max(repeated, place - (self.shards - 1))

    def stands_done(self, step, shard=None):
        """Whether a step stands done, which of the refresh of the target is that of a shard, or of each where none is told."""
        last = self.shards - 1 if shard is None else shard
        return self.first_step() <= step and self.place_of_step(step, last) < self.next_place()


@dataclass
class Lane:
    """What goes on for a shard of a target; `copied` is None, the last row copied, or "ended", and `written` counts the writes in that shard."""

    shard: int
    forward_at: int
    fed: int = 0
    written: int = 0
    copied: object = None
    back_at: int = 0
    fresh_at: int = 0


@dataclass
class Live:
    """A live workflow, with a lane for each shard of its target."""

    name: str
    source: str
    target: str
    tables: list
    cuts: list
    lanes: list
    switched: frozenset = frozenset()
    way: Way = None

    def sides(self):
        return (self.source, self.target)

    def owner_by(self, types):
        return self.target if "primary" in types else self.source

    def before_way(self):
        return self.way.before if self.way else self.switched

    def old_owner(self):
        return self.owner_by(self.before_way())

    def new_owner(self):
        return self.source if "primary" in self.before_way() else self.target

    def types_by(self, step, shard=None):
        """The types to read the table of a part with at what changes with a step, or with that of a shard."""
        if not self.way:
            return self.switched
        return self.way.after if self.way.stands_done(step, shard) else self.way.before

    def is_denied(self, keyspace, by_old, by_new, shard=None):
        """Whether a side is denied, or lists the tables, which changes with one step at the old owner and with another at the new one."""
        types = self.types_by(by_old if keyspace == self.old_owner() else by_new, shard)
        return ("primary" in types) == (keyspace == self.source)

    def lane_of(self, key):
        return self.lanes[shard_of(self.cuts, key)]

    def is_copied(self, table, key):
        """Whether a row of a moved table lies in the copied range of its shard."""
        copied = self.lane_of(key).copied
        return copied == "ended" or copied is not None and (self.tables.index(table), key) <= copied

    def is_behind(self):
        return any(lane.fed < lane.written for lane in self.lanes)

    def slot_before_way(self, stream, lane):
        target_owns = "primary" in self.before_way()
        if stream == "forward":
            return ("frozen" if target_owns else "running", lane.forward_at)
        return ("running", lane.back_at) if target_owns else None

    def slot(self, stream, shard=0):
        """The state and the position of the stream of a shard, or None."""
        way, lane = self.way, self.lanes[shard]
        slot = self.slot_before_way(stream, lane)
        if not way or "primary" not in way.changed():
            return slot
        if way.back == (stream == "back"):
            return ("stopped", slot[1]) if slot and way.stands_done(STOP) else slot
        if way.stands_done(CREATE_BACK):
            return ("running" if way.stands_done(START_BACK) else "stopped", lane.fresh_at)
        return slot

    def stream_text(self, stream):
        """What is shown of a stream: that of each shard, behind its range where there are several."""
        shown = []
        for lane, text in zip(self.lanes, ranges_of(self.cuts)):
            slot = self.slot(stream, lane.shard)
            if slot:
                shown += [text] * (len(self.lanes) > 1) + [slot[0], str(slot[1])]
            if stream == "forward":
                shown.append("copied" if lane.copied == "ended" else "copying")
        return " ".join(shown) or "none"


@functools.cache
def twelve_keys(source, target, table):
    return [name + at for name in (table, f"{source}.{table}", f"{target}.{table}") for at in ("", "@primary", "@replica", "@rdonly")]


@functools.cache
def cut(key):
    """A key as its keyspace, its table and its type."""
    name, _, type_of = key.partition("@")
    keyspace, dot, table = name.partition(".")
    return (keyspace, table, type_of) if dot else (None, name, type_of)


def types_of(text):
    return frozenset(TYPES if text == "all" else [] if text == "-" else text.split(","))


def types_text(types):
    return ",".join(it for it in TYPES if it in types) or "-"


@dataclass
class Plain:
    """The plain state; `rows` has of each table's number the rows that the writes left, `cuts` of each keyspace the bounds between its shards."""

    scopes: list
    rules: dict = field(default_factory=dict)
    keyspaces: dict = field(default_factory=dict)
    cuts: dict = field(default_factory=dict)
    numbers: dict = field(default_factory=dict)
    made: int = 0
    writes: list = field(default_factory=list)
    rows: dict = field(default_factory=dict)
    logs: dict = field(default_factory=dict)
    lives: list = field(default_factory=list)
    journal: int = 0

    def copied(self):
        """An equal state that shares nothing with it; `copy.deepcopy` takes several times as long."""
        return pickle.loads(pickle.dumps(self))

    # ---- what is there

    def live(self, name):
        found = next((w for w in self.lives if w.name == name), None)
        refuse_if(not found, F7)
        return found

    def mover(self, table):
        return next((w for w in self.lives if table in w.tables), None)

    def has_table(self, keyspace, table):
        w = self.mover(table)
        return bool(w and w.target == keyspace) or table in self.keyspaces.get(keyspace, ())

    def part_owner(self, key):
        keyspace, table, _ = cut(key)
        w = self.mover(table)
        return w if w and (keyspace is None or keyspace in w.sides()) else None

    def served_rule(self, key):
        """A rule as the topology serves it: by the table of a part, or as it was set."""
        w = self.part_owner(key)
        if not w:
            return self.rules.get(key)
        keyspace, table, type_of = cut(key)
        if type_of == "primary":
            return None
        types = w.types_by(READS if type_of else WRITE_RULES)
        if type_of:
            return f"{w.target if type_of in types else w.source}.{table}"
        if keyspace is None:
            return f"{w.owner_by(types)}.{table}"
        if keyspace == w.source:
            return f"{w.target}.{table}" if "primary" in types else self.rules.get(key)
        return None if "primary" in types else f"{w.source}.{table}"

    def served_rules(self):
        keys = set(self.rules) | {key for w in self.lives for table in w.tables for key in twelve_keys(w.source, w.target, table)}
        served = {key: self.served_rule(key) for key in keys}
        return [{"from_table": key, "to_tables": [served[key]]} for key in sorted(keys) if served[key]]

    def is_refused(self, keyspace, table, key):
        """Whether the own list of the primary of a key's shard refuses a table."""
        w, shard = self.mover(table), shard_of(self.cuts[keyspace], key)
        return bool(w) and keyspace in w.sides() and w.is_denied(keyspace, REFRESH_SOURCE, REFRESH_TARGET, shard)

    def tables_at(self, keyspace):
        moved = {table for w in self.lives if w.target == keyspace for table in w.tables}
        return sorted(self.keyspaces[keyspace] | moved)

    def look_up(self, name, type_of):
        """Where a name leads."""
        plain = name.partition("@")[0]
        target = self.served_rule(f"{plain}@{type_of}") or self.served_rule(plain)
        if target or "." in plain:
            return (target or plain).split(".")
        having = [keyspace for keyspace in self.keyspaces if self.has_table(keyspace, plain)]
        refuse_if(not having, NOT_FOUND)
        refuse_if(len(having) > 1, AMBIGUOUS)
        return having[0], plain

    # ---- rows

    def client_number(self, keyspace, table):
        w = self.mover(table)
        return self.numbers[(w.source if w and keyspace in w.sides() else keyspace, table)]

    def lane_writes(self, w, lane):
        """The writes to the tables of a workflow with a key in the shard of a lane."""
        numbers = {self.numbers[(w.source, table)] for table in w.tables}
        return [it for it in self.writes if it[0] in numbers and w.lane_of(it[1]) is lane]

    def row(self, keyspace, table, key):
        """A row at a keyspace: at the side that is no owner what was fed leaves, in the copied range."""
        w = self.mover(table)
        if not w or keyspace not in w.sides() or keyspace == w.owner_by(w.switched):
            return self.rows[self.client_number(keyspace, table)].get(key)
        if not w.is_copied(table, key):
            return None
        lane = w.lane_of(key)
        fed = self.lane_writes(w, lane)[: lane.fed]
        mine = [after for number, at, after in fed if (number, at) == (self.numbers[(w.source, table)], key)]
        return mine[-1] if mine else None

    def write(self, keyspace, table, verb, key, value):
        refuse_if(keyspace not in self.keyspaces, F1)
        refuse_if(not self.has_table(keyspace, table), F2)
        refuse_if(self.is_refused(keyspace, table, key), F3)
        number = self.client_number(keyspace, table)
        before = self.rows[number].get(key)
        refuse_if(verb == "insert" and before is not None, F4)
        refuse_if(verb != "insert" and before is None, F5)
        after = {"insert": value, "update": value, "append": (before or "") + (value or ""), "delete": None}[verb]
        refuse_if(verb == "append" and len(after) > 64, F29)
        self.writes.append((number, key, after))
        self.rows[number][key] = after
        self.logs[(keyspace, shard_of(self.cuts[keyspace], key))].append((table, key))
        w = self.mover(table)
        if w and keyspace in w.sides():
            w.lane_of(key).written += 1
        return "ok"

    def read(self, keyspace, table, key, type_of):
        refuse_if(keyspace not in self.keyspaces, F1)
        refuse_if(not self.has_table(keyspace, table), F2)
        refuse_if(type_of == "primary" and self.is_refused(keyspace, table, key), F3)
        row = self.row(keyspace, table, key)
        return "none" if row is None else f"row {row}"

    # ---- keyspaces, tables, rules

    def add_keyspace(self, keyspace, shards="-"):
        cuts = read_shards(shards)
        refuse_if(keyspace in self.keyspaces, F30)
        refuse_if(len(self.keyspaces) >= MOST_KEYSPACES, F27)
        self.keyspaces[keyspace], self.cuts[keyspace] = set(), cuts
        for shard in range(len(cuts) + 1):
            self.logs[(keyspace, shard)] = []
        return "ok"

    def add_table(self, keyspace, table):
        refuse_if(keyspace not in self.keyspaces, F1)
        refuse_if(self.has_table(keyspace, table), F30)
        refuse_if(len(self.tables_at(keyspace)) >= MOST_TABLES, F27)
        self.keyspaces[keyspace].add(table)
        self.numbers[(keyspace, table)] = self.made
        self.rows[self.made] = {}
        self.made += 1
        return "ok"

    def keys_without_rule(self, source, target, tables):
        return sum(key not in self.rules for table in tables for key in twelve_keys(source, target, table))

    def rule_count(self):
        return len(self.rules) + sum(self.keys_without_rule(w.source, w.target, w.tables) for w in self.lives)

    def edit_rule(self, key, target):
        refuse_if(self.part_owner(key), F22)
        refuse_if(target != "-" and key not in self.rules and self.rule_count() >= MOST_RULES, F27)
        self.rules.pop(key, None)
        if target != "-":
            self.rules[key] = target
        return "ok"

    # ---- workflows

    def create(self, name, source, target, tables):
        tables = [] if tables == "-" else tables.split(",")
        refuse_if(any(w.name == name for w in self.lives), F6)
        refuse_if(not tables, F12)
        refuse_if(source == target, F11)
        refuse_if(source not in self.keyspaces or target not in self.keyspaces, F1)
        refuse_if(self.cuts[source], F33)
        for table in tables:
            refuse_if(not self.has_table(source, table), F2)
            refuse_if(self.mover(table), F8)
            refuse_if(self.has_table(target, table), F10)
            leads = {self.rules.get(key) for key in twelve_keys(source, target, table)}
            refuse_if(leads - {None, f"{source}.{table}"}, F9)
        refuse_if(target not in self.scopes, F24)
        refuse_if(len(self.lives) >= MOST_WORKFLOWS, F27)
        refuse_if(len(self.tables_at(target)) + len(tables) > MOST_TABLES, F27)
        refuse_if(self.rule_count() + self.keys_without_rule(source, target, tables) > MOST_RULES, F27)
        lanes = [Lane(shard, len(self.logs[(source, 0)])) for shard in range(len(self.cuts[target]) + 1)]
        w = Live(name, source, target, tables, self.cuts[target], lanes)
        for lane in lanes:
            lane.fed = lane.written = len(self.lane_writes(w, lane))
        self.lives.append(w)
        return "ok"

    def log_of(self, w, keyspace, lane):
        """The log of the primary of a side, which of the target is that of the shard of a lane."""
        return self.logs[(keyspace, lane.shard if keyspace == w.target else 0)]

    def uncopied(self, w, lane):
        """The rows of a lane's shard that are still to be copied."""
        for table in w.tables:
            for key, row in sorted(self.rows[self.numbers[(w.source, table)]].items()):
                if row is not None and w.lane_of(key) is lane and not w.is_copied(table, key):
                    yield table, key

    def advance(self, name, stream, at, most):
        stream, slash, text = stream.partition("/")
        text = text if slash else "-"
        read_range(text)
        w = self.live(name)
        ranges = ranges_of(w.cuts)
        refuse_if(text not in ranges, F32)
        return self.turn(w, stream, w.lanes[ranges.index(text)], at, most)

    def turn(self, w, stream, lane, at, most):
        """A turn of the stream of a lane."""
        slot = w.slot(stream, lane.shard)
        refuse_if(not slot or slot[0] != "running", F26)
        refuse_if(at != slot[1], F25)
        read, written = w.sides() if stream == "forward" else w.sides()[::-1]
        past = self.log_of(w, read, lane)[at:]
        taken, rows = [(table, key) for table, key in past[:most] if table in w.tables and w.lane_of(key) is lane], []
        if past:
            self.log_of(w, written, lane).extend(it for it in taken if w.is_copied(*it))
        else:
            left = list(self.uncopied(w, lane))
            rows = left[:most]
            self.log_of(w, written, lane).extend(rows)
            if len(rows) < most and len(rows) == len(left):
                lane.copied = "ended"
            elif rows:
                lane.copied = (w.tables.index(rows[-1][0]), rows[-1][1])
        events = len(past[:most])
        lane.fed += len(taken)
        is_fresh = w.way and "primary" in w.way.changed() and w.way.back != (stream == "back") and w.way.stands_done(CREATE_BACK)
        setattr(lane, "fresh_at" if is_fresh else f"{stream}_at", at + events)
        return f"events {events} rows {len(rows)}"

    def begin_switch(self, name, types):
        w = self.live(name)
        refuse_if(w.way, F13)
        refuse_if(not types_of(types) - w.switched, F15)
        refuse_if(any(lane.copied != "ended" for lane in w.lanes), F17)
        w.way = Way(False, len(w.lanes), w.switched, w.switched | types_of(types))
        return "ok"

    def begin_reverse(self, name, types):
        w = self.live(name)
        refuse_if(w.way, F13)
        refuse_if(not types_of(types) & w.switched, F16)
        w.way = Way(True, len(w.lanes), w.switched, w.switched - types_of(types))
        return "ok"

    def own_refusal(self, w, step):
        way = w.way
        if step == READS:
            refuse_if(way.back == ("primary" in way.before) and w.is_behind(), F18)
        if step == CATCH_UP:
            refuse_if(w.is_behind(), F18)
        if step in (REFRESH_SOURCE, REFRESH_TARGET):
            refuse_if((w.old_owner() if step == REFRESH_SOURCE else w.new_owner()) not in self.scopes, F24)
        if step == JOURNAL:
            refuse_if(self.journal >= MOST_JOURNAL, F27)

    def step(self, name, at):
        w = self.live(name)
        way = w.way
        refuse_if(not way, F14)
        refuse_if(way.undoing, F28)
        refuse_if(at != way.done, F25)
        step = way.next_step()
        self.own_refusal(w, step)
        for lane in w.lanes if step == CREATE_BACK else []:
            lane.fresh_at = len(self.log_of(w, w.new_owner(), lane))
        if step == JOURNAL:
            w.switched = way.after
            self.journal += 1
        way.done += 1
        if way.next_step() == way.behind_last():
            for lane in w.lanes if "primary" in way.changed() else []:
                setattr(lane, "forward_at" if way.back else "back_at", lane.fresh_at)
            w.switched, w.way = way.after, None
        return "ok"

    def undo(self, name, at):
        w = self.live(name)
        way = w.way
        refuse_if(not way, F14)
        refuse_if(way.stands_done(JOURNAL), F19)
        refuse_if(at != way.done, F25)
        if at <= 1:
            w.way = None
        else:
            way.done, way.undoing = at - 1, True
        return "ok"

    def cancel(self, name):
        w = self.live(name)
        refuse_if(w.way, F13)
        refuse_if(w.switched, F20)
        self.lives.remove(w)
        return "ok"

    def complete(self, name):
        w = self.live(name)
        refuse_if(w.way, F13)
        refuse_if(len(w.switched) < 3, F21)
        self.lives.remove(w)
        for table in w.tables:
            for key in twelve_keys(w.source, w.target, table):
                self.rules.pop(key, None)
            self.keyspaces[w.source].discard(table)
            self.keyspaces[w.target].add(table)
            self.numbers[(w.target, table)] = self.numbers.pop((w.source, table))
        return "ok"

    def show(self, name):
        w = self.live(name)
        way = w.way
        told = f"{'back' if way.back else 'forward'} {types_text(way.changed())} {way.done}{' undoing' * way.undoing}" if way else "none"
        tables, switched, forward, back = ",".join(w.tables), types_text(w.switched), w.stream_text("forward"), w.stream_text("back")
        return f"{w.name} {w.source} {w.target} {tables} switched {switched} way {told} forward {forward} back {back}"

    # ---- whole switches

    def drive(self, name, types, backward):
        (self.begin_reverse if backward else self.begin_switch)(name, types)
        w, tries = self.live(name), MOST_TRIES
        while w.way:
            try:
                self.step(name, w.way.done)
                tries = MOST_TRIES
            except Refused as refused:
                try:
                    if str(refused) != F18 or tries < 2:
                        raise
                    tries -= 1
                    stream = "back" if w.way.back else "forward"
                    for lane in w.lanes:
                        self.turn(w, stream, lane, w.slot(stream, lane.shard)[1], MOST_AT_ONCE)
                except Refused as last:
                    if w.way.stands_done(JOURNAL):
                        return f"stopped {last} {w.way.done}"
                    while w.way:
                        self.undo(name, w.way.done)
                    return f"abandoned {last}"
        return "ok"

    # ---- lines

    def on_row(self, keyspace, table, type_of, verb, words):
        key = int(words[0])
        return self.read(keyspace, table, key, type_of) if verb == "get" else self.write(keyspace, table, verb, key, (words[1:] or [None])[0])

    def documents(self, verb):
        document = {"rules": self.served_rules()}
        if verb == "dump":
            sides = {(keyspace, table) for w in self.lives for keyspace in w.sides() for table in w.tables if w.is_denied(keyspace, DENY, ALLOW)}
            document["denied"] = sorted(map(".".join, sides))
            document["keyspaces"] = [{"name": it, "shards": ranges_of(self.cuts[it]), "tables": self.tables_at(it)} for it in sorted(self.keyspaces)]
            document["version"] = 2
        return json.dumps(document, separators=(",", ":"), sort_keys=True)

    def command(self, verb, words):
        if verb in ("insert", "update", "append", "delete", "get"):
            type_of = words[0].partition("@")[2] or "primary"
            keyspace, table = self.look_up(words[0], type_of)
            return self.on_row(keyspace, table, type_of, verb, words[1:])
        if verb == "at":
            keyspace, table, type_of = cut(words[0])
            return self.on_row(keyspace, table, type_of or "primary", words[1], words[2:])
        if verb in ("rules", "dump"):
            return self.documents(verb)
        if verb in ("switch", "reverse"):
            return self.drive(*words, verb == "reverse")
        calls = {"keyspace": self.add_keyspace, "table": self.add_table, "rule": self.edit_rule}
        call = calls.get(verb) or getattr(self, verb.replace("-", "_"))
        first_number = {"step": 1, "undo": 1, "advance": 2}.get(verb, len(words))
        return call(*words[:first_number], *map(int, words[first_number:]))

    def answer(self, line):
        """What a line is answered, in this state; the state behind it is this one."""
        verb, *words = line.split()
        try:
            return self.command(verb, words)
        except Refused as refused:
            return f"refused {refused}"


def answers(scopes, lines):
    """What the lines of a script are answered, in a run with watchers for these keyspaces' primaries."""
    state = Plain(list(scopes))
    return [state.answer(line) for line in lines if line.strip() and not line.startswith("#")]
