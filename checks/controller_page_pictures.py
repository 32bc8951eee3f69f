"""The picture that a controller gives, beside that of tools/picture for the same lines."""
from __future__ import annotations

import json
import pathlib
import time
from collections.abc import Sequence
from concurrent.futures import ThreadPoolExecutor
from typing import Any

from controller_page_served import Cases, Place
from known_scripts import EXAMPLES
from mt_controller.pictured import LOOKED_AT
from mt_picture.facts import document_text
from mt_picture.gathering import gather
from mt_picture.script import Script, read_script
from mt_runs.program import Program
from mt_runs.refusals import read_script_page

SCRIPTS = ["abandoned_switch", "give_up_a_switch", "two_moves", "two_shards", "whole_move"]
MOST_COLUMNS = 40
CLIENTS = [f"insert corder {it} v" for it in range(10, 3010)]


def script_of(name: str) -> Script:
    """An example."""
    return read_script(EXAMPLES / f"{name}.script")


def facts_of(program: pathlib.Path, script: Script) -> Any:
    """The facts by tools/picture."""
    return json.loads(document_text(gather(Program(program, script.watchers), script, read_script_page())))


def first_difference(got: Any, wanted: Any, path: str = "") -> str:
    """Where two values begin to differ; nothing if they don't."""
    if isinstance(got, dict) and isinstance(wanted, dict) and list(got) == list(wanted):
        return next((found for key in got if (found := first_difference(got[key], wanted[key], f"{path}.{key}"))), "")
    if isinstance(got, list) and isinstance(wanted, list) and len(got) == len(wanted):
        return next((found for at, pair in enumerate(zip(got, wanted)) if (found := first_difference(*pair, f"{path}[{at}]"))), "")
    return "" if got == wanted else f"{path} is {json.dumps(got)[:150]}, wanted {json.dumps(wanted)[:150]}"


def by_number(facts: Any) -> dict[int, int]:
    """The place of each move among those of the facts, by the number of its `create`."""
    return {it["created"]: place for place, it in enumerate(facts["moves"])}


def columns_of(facts: Any, moves: Sequence[int]) -> list[Any]:
    """The last columns, with what they have of moves."""
    places = by_number(facts)
    return [{**it, "moves": [it["moves"][places[number]] for number in moves]} for it in facts["columns"][-MOST_COLUMNS:]]


def differences(got: Any, wanted: Any, last_alone: bool = False) -> list[str]:
    """Where the facts of a controller aren't those of tools/picture: in each column, or in the last one alone."""
    if got is None:
        return ["there is no picture"]
    moves = list(by_number(got))
    missing = [f"the move of line {it} isn't in tools/picture" for it in moves if it not in by_number(wanted)]
    if missing:
        return missing
    if last_alone:
        last, other = columns_of(got, moves)[-1], columns_of(wanted, moves)[-1]
        found = [first_difference([without(it) for it in last["moves"]], [without(it) for it in other["moves"]])]
        return [it for it in found if it] + [it for pair in zip(last["moves"], other["moves"]) for it in other_way_back(*pair)]
    lines = [{"text": it["text"], "answer": it["answer"]} for it in wanted["lines"]]
    told = [{"text": it["text"], "answer": it["answer"]} for it in got["lines"]]
    found = [first_difference(columns_of(got, moves), columns_of(wanted, moves), "columns")]
    found += [first_difference([got["moves"][by_number(got)[it]] for it in moves], [wanted["moves"][by_number(wanted)[it]] for it in moves], "moves")]
    cut = [it if len(it["answer"]) <= 400 else {**it, "answer": f"{it['answer'][:400]}.."} for it in lines]
    found += [first_difference(told, [cut[number - 1] for number in got["numbers"]], "lines")]
    return [it for it in found if it]


def without(state: Any) -> Any:
    """What stands of a move, without what only the lines of its column say: who saw less of the log can't know it."""
    if state is None:
        return None
    way_back = state["way_back"] and {**state["way_back"], "as_before": None}
    return {**state, "queries": [], "drive": None, "way_back": way_back}


def other_way_back(got: Any, wanted: Any) -> list[str]:
    """What of a way back is otherwise than tools/picture has it: it leads to the same, to the beginning of a column, or that isn't known."""
    if got is None or wanted is None or got["way_back"] is None or wanted["way_back"] is None:
        return []
    where, exact = got["way_back"]["as_before"], wanted["way_back"]["as_before"]
    is_so = exact is None if where is None else exact is not None and (where == "unseen" or where <= exact)
    return [] if is_so else [f"the way back leads to before line {where}, wanted {exact}"]


def line_by_line(place: Place, name: str) -> list[str]:
    """A script whose lines come one by one: each column is that of tools/picture."""
    script = script_of(name)
    with place.serving(watched=script.watchers) as served:
        facts = None
        for number, line in enumerate(script.lines, 1):
            served.take(line)
            facts = served.pictured(number)
        return differences(facts, facts_of(place.program, script))


def found_there(place: Place, name: str) -> list[str]:
    """A log that has the first half of a script when the controller starts: it says what it can't know, and the last column is that of tools/picture."""
    script = script_of(name)
    log, half = place.new_log(), len(script.lines) // 2
    with place.serving(log=log, watched=script.watchers) as served:
        place.batch(log, script.lines[:half])
    with place.serving(log=log, watched=script.watchers) as served:
        facts = served.pictured(half)
        found = [] if facts["columns"][0]["first"] == 1 and facts["columns"][0]["last"] == half else ["the first column isn't the log as it was found"]
        backs = [it["way_back"] for it in facts["columns"][0]["moves"] if it and it["way_back"]]
        found += [f"the way back is {it}" for it in backs if it["as_before"] not in ("unseen", None)]
        place.batch(log, script.lines[half:])
        facts = served.pictured(len(script.lines))
    return found + differences(facts, facts_of(place.program, script), last_alone=True)


def at_once(place: Place, count: int) -> list[str]:
    """The first lines of a script, which come at once while nobody looks, a move and its switch among them."""
    script = script_of("two_shards")
    lines = script.lines[:count]
    with place.serving(watched=script.watchers) as served:
        while not served.state()["picture"]["number"]:
            pass
        time.sleep(LOOKED_AT)
        place.batch(served.log, lines)
        facts = served.pictured(count)
    found = [f"{len(facts['columns'])} columns"] * (len(facts["columns"]) != 1)
    return found + differences(facts, facts_of(place.program, Script(lines, {}, "", script.watchers)), last_alone=True)


def many_at_once(place: Place) -> list[str]:
    """Thousands of lines of another controller: they share columns, and what stands behind is that of tools/picture."""
    script = script_of("switch_by_steps")
    lines = [*script.lines[:5], *CLIENTS, *script.lines[5:]]
    with place.serving(watched=script.watchers) as served:
        answers = place.batch(served.log, lines)
        facts = served.pictured(len(lines))
        told = served.state()
    whole = Script(tuple(lines), {}, "", script.watchers)
    found = ["the answers are others"] * (answers != Program(place.program, script.watchers).answers(lines))
    found += [f"{len(facts['columns'])} columns"] * (len(facts["columns"]) > MOST_COLUMNS)
    found += ["the last lines are others"] * ([it[1] for it in told["lines"]] != lines[-len(told["lines"]) :])
    return found + differences(facts, facts_of(place.program, whole), last_alone=True)


def pictures(place: Place) -> Cases:
    """All of these, side by side."""
    tries = {f"a picture line by line: {name}": (line_by_line, name) for name in SCRIPTS}
    tries.update({f"a picture of a log that is found: {name}": (found_there, name) for name in ("two_shards", "switch_by_steps", "two_moves")})
    with ThreadPoolExecutor(3) as pool:
        found = {name: pool.submit(so, place, script) for name, (so, script) in tries.items()}
        found.update({f"a picture of {count} lines at once": pool.submit(at_once, place, count) for count in (12, 19)})
        found["a picture of many lines at once"] = pool.submit(many_at_once, place)
        yield from ((name, it.result()) for name, it in found.items())
