"""The scripts of checks/fail_alloc, in which each allocation fails in turn."""
import pathlib
import re

TOP = pathlib.Path(__file__).resolve().parent.parent

SCRIPT = b"""keyspace commerce
keyspace customer
table commerce corder
table customer cart
rule c commerce.corder
rule d@replica customer.cart
insert c 1 a
insert c 2 b
insert cart 7 z
update c 1 q
append c 1 x
get c 1
get d@replica 7
delete c 2
get c 2
at commerce.corder get 1
rules
dump
rule c -
rules
"""

WORKFLOW = b"""keyspace commerce
keyspace customer
table commerce corder
table commerce cart
insert corder 1 a
insert corder 2 b
insert cart 7 z
rule corder commerce.corder
create mv commerce customer corder,cart
advance mv forward 3 1
update corder 1 q
insert corder 3 c
delete corder 2
show mv
advance mv forward 3 2
advance mv forward 5 100
advance mv forward 6 100
append corder 3 d
insert cart 8 y
advance mv forward 6 100
get customer.corder 3
show mv
rules
dump
cancel mv
rules
dump
show mv
insert corder 4 e
create mv commerce customer corder
cancel mv
get corder 4
"""

SIXTEEN = [f"t{number}" for number in range(16)]
SIXTEEN_TABLES = "".join(
    f"{line}\n"
    for line in [
        "keyspace commerce",
        "keyspace customer",
        *(f"table commerce {table}" for table in SIXTEEN),
        "insert t3 1 a",
        f"create mv commerce customer {','.join(SIXTEEN)}",
        "show mv",
        "rules",
        "advance mv forward 1 100",
        "insert t15 2 b",
        "cancel mv",
        "dump",
        "rules",
    ]
).encode()

STEPS = [f"step mv {number}" for number in range(12)]
WAYS = "".join(
    f"{line}\n"
    for line in [
        "keyspace commerce",
        "keyspace customer",
        "table commerce corder",
        "table commerce cart",
        "insert corder 1 a",
        "insert cart 7 z",
        "rule corder commerce.corder",
        "create mv commerce customer corder,cart",
        "advance mv forward 2 100",
        "begin-switch mv all",
        *STEPS[:6],
        "show mv",
        *(f"undo mv {number}" for number in range(6, 0, -1)),
        "insert corder 2 b",
        "advance mv forward 2 100",
        "begin-switch mv all",
        *STEPS,
        "show mv",
        "dump",
        "insert corder 3 c",
        "append cart 7 y",
        "advance mv back 3 100",
        "begin-reverse mv all",
        *STEPS,
        "show mv",
        "dump",
        "get corder 3",
        "get cart 7",
        "begin-switch mv replica,rdonly",
        *STEPS[:1],
        "begin-switch mv primary",
        *STEPS[:11],
        "show mv",
        "complete mv",
        "dump",
        "get corder 3",
        "insert corder 4 d",
        "create mv customer commerce corder",
        "cancel mv",
        "get corder 4",
    ]
).encode()

DRIVES = b"""keyspace commerce
keyspace customer
table commerce corder
table commerce cart
insert corder 1 a
insert cart 7 z
rule corder commerce.corder
create mv commerce customer corder,cart
advance mv forward 2 100
switch mv replica,rdonly
show mv
switch mv all
show mv
insert corder 2 b
append cart 7 y
advance mv back 2 100
reverse mv all
show mv
get corder 2
get cart 7
rules
switch mv all
complete mv
dump
get corder 2
"""

TWO_MOVES = "".join(
    f"{line}\n"
    for line in [
        "keyspace commerce",
        "keyspace customer",
        "keyspace archive",
        *(f"table commerce {table}" for table in ("corder", "cart", "audit")),
        "insert corder 1 a",
        "insert cart 7 z",
        "insert audit 5 x",
        "rule corder commerce.corder",
        "create one commerce customer corder,cart",
        "create two commerce archive audit",
        "advance one forward 3 100",
        "advance two forward 3 100",
        "append corder 1 b",
        "append audit 5 y",
        "begin-switch one all",
        "switch two replica",
        "step one 0",
        "advance one forward 3 100",
        *(f"step one {number}" for number in range(4)),
        "append audit 5 z",
        "advance two forward 5 100",
        "begin-switch two primary",
        *(f"step two {number}" for number in range(5)),
        *(f"step one {number}" for number in range(4, 9)),
        *(f"undo two {number}" for number in range(5, 0, -1)),
        "reverse two all",
        *(f"step one {number}" for number in range(9, 12)),
        "show one",
        "show two",
        "dump",
        "cancel two",
        "insert corder 2 c",
        "append cart 7 y",
        "advance one back 3 1",
        "show one",
        "reverse one all",
        "dump",
        "switch one all",
        "complete one",
        "dump",
        "get corder 2",
        "get cart 7",
        "get audit 5",
    ]
).encode()

# a table moves to two shards, there and back, by steps and by whole switches; another move is cancelled
HALF = 1 << 63
PLACES = [f"step mv {number}" for number in range(13)]
TWO_SHARDS = [
    "keyspace commerce",
    "keyspace customer -80,80-",
    "table commerce corder",
    "table commerce cart",
    *(f"insert {table} {key} a" for table in ("corder", "cart") for key in (1, HALF)),
    "rule corder commerce.corder",
    "create mv commerce customer corder,cart",
]
SHARDED = "".join(
    f"{line}\n"
    for line in [
        *TWO_SHARDS,
        "advance mv forward/80- 4 1",
        f"append corder {HALF} b",
        "append corder 1 b",
        "advance mv forward/80- 4 1",
        "advance mv forward/80- 5 100",
        "advance mv forward/80- 6 100",
        "advance mv forward/-80 4 100",
        "advance mv forward/-80 6 100",
        "show mv",
        "dump",
        f"append corder {HALF} c",
        "append cart 1 c",
        "advance mv forward/-80 6 100",
        "advance mv forward/80- 6 100",
        "begin-switch mv all",
        *PLACES[:6],
        "show mv",
        *(f"undo mv {number}" for number in range(6, 0, -1)),
        "begin-switch mv all",
        *PLACES,
        "show mv",
        "append corder 1 d",
        f"insert corder {HALF + 1} d",
        f"append cart {HALF} d",
        "advance mv back/-80 3 100",
        "advance mv back/80- 4 1",
        "begin-reverse mv primary",
        *PLACES[:3],
        *(f"undo mv {number}" for number in range(3, 0, -1)),
        "advance mv back/80- 5 100",
        "begin-reverse mv all",
        *PLACES,
        "show mv",
        "insert corder 2 e",
        f"append cart {HALF} e",
        "switch mv replica",
        "insert corder 3 e",
        f"append cart {HALF} f",
        "switch mv all",
        "append corder 3 g",
        f"append corder {HALF} g",
        "show mv",
        "reverse mv all",
        "show mv",
        "cancel mv",
        "dump",
        *(f"get {table} {key}" for table in ("corder", "cart") for key in (1, HALF)),
        "create other commerce customer cart",
        "advance other forward/-80 17 100",
        "advance other forward/80- 17 100",
        "begin-switch other primary",
        *(f"step other {number}" for number in range(3)),
        "show other",
        *(f"undo other {number}" for number in range(3, 0, -1)),
        "cancel other",
        f"append cart {HALF} h",
        f"get cart {HALF}",
    ]
).encode()

# what has to be done with no memory left: a switch is undone, another one completed
NO_MORE = "".join(
    f"{line}\n"
    for line in [
        "keyspace commerce",
        "keyspace customer",
        "table commerce corder",
        "table commerce cart",
        "insert corder 1 a",
        "insert cart 7 z",
        "rule corder commerce.corder",
        "create mv commerce customer corder,cart",
        "advance mv forward 2 100",
        "begin-switch mv all",
        *STEPS[:6],
        *(f"undo mv {number}" for number in range(6, 0, -1)),
        "show mv",
        "begin-switch mv all",
        *STEPS[:3],
        *(f"undo mv {number}" for number in range(3, 0, -1)),
        "cancel mv",
        "get corder 1",
        "create mv commerce customer cart",
        "advance mv forward 2 100",
        "begin-switch mv all",
        *STEPS,
        "show mv",
        "complete mv",
        "cancel mv",
        "get cart 7",
    ]
).encode()

# the same with a target of two shards
NO_MORE_IN_SHARDS = "".join(
    f"{line}\n"
    for line in [
        *TWO_SHARDS,
        "advance mv forward/-80 4 100",
        "advance mv forward/80- 4 100",
        "begin-switch mv all",
        *PLACES[:6],
        *(f"undo mv {number}" for number in range(6, 0, -1)),
        "show mv",
        "begin-switch mv all",
        *PLACES,
        "show mv",
        "begin-reverse mv all",
        *PLACES[:5],
        *(f"undo mv {number}" for number in range(5, 0, -1)),
        "complete mv",
        "cancel mv",
        f"get corder {HALF}",
    ]
).encode()

RULES = b'{"rules":[{"fromTable":"b","toTables":["k.b"],"x":1},{"from_table":"a@replica","to_tables":["k.a"]}]}'
DUMP = b'{"version":1,"keyspaces":[{"name":"b","tables":["t"]},{"name":"a"}],"denied":["b.t"],"rules":[{"from_table":"x","to_tables":["b.t"]}]}'


def words_of(script):
    """The words of a script's command line, by its own comment."""
    told = re.search(rf"^# +\./mt (run.*) < examples/{script.name}$", script.read_text(), re.M)
    return told[1].split() if told else ["run"]


def without_silent(script):
    """A script without its empty lines and comments, so that each line has an answer."""
    return "".join(f"{line}\n" for line in script.read_text().splitlines() if line and not line.startswith("#")).encode()


# the whole moves of examples/
EXAMPLES = [(words_of(script), without_silent(script)) for script in sorted((TOP / "examples").glob("*.script"))]

RUNS = [
    (["run", "commerce", "customer"], SCRIPT),
    (["run", "commerce", "customer"], WORKFLOW),
    (["run", "commerce", "customer"], SIXTEEN_TABLES),
    (["run", "commerce", "customer"], WAYS),
    (["run", "commerce", "customer"], DRIVES),
    (["run", "customer"], DRIVES),
    (["run", "commerce", "customer", "archive"], TWO_MOVES),
    (["run", "commerce", "customer"], SHARDED),
    *EXAMPLES,
    (["rules"], RULES),
    (["rules"], b'{"rules":['),
    (["topology"], DUMP),
    (["help"], b""),
]
