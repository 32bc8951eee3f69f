"""The roads of mt_replay, and which plays go by which of them where allocations fail: checks/fail_alloc runs these, and docs/PLAYS.md lists them."""

ROADS = ("apply", "list", "ones", "desk", "script")

# in which one allocation fails: whole moves, and what takes most memory
ONE_FAILS = {
    name: ("apply", "ones", "desk")
    for name in ("cancelled", "stepped", "reversed", "completed", "both", "life", "memory", "ways_memory", "shards_memory", "shards_ways_memory")
}

# in which all allocations fail from one on: their lines behind `without memory` need none (a desk needs memory for all but what is owed)
ALL_FAIL = {"memory": ("apply",), "shards_memory": ("apply",), "given_up": ("apply", "desk")}
