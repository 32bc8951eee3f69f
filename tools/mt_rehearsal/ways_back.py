"""The ways back from behind a command, each tried in a run of its own."""
from __future__ import annotations

from collections.abc import Sequence

from mt_rehearsal.commands import COMPLETE
from mt_rehearsal.moved import Moved
from mt_rehearsal.report import CommandReport, WayBack
from mt_rehearsal.session import Session
from mt_rehearsal.states import States
from mt_runs.topology import parse_dump


def ways_back(session: Session, states: States, move: Moved, shown: CommandReport) -> list[WayBack]:
    """Each way back from behind a command; behind a `complete`, which has none, those that there were before it."""
    ways = _ways(session, move, shown)
    return [_tried(session, states, move, it) for it in ways]


def _ways(session: Session, move: Moved, shown: CommandReport) -> list[list[tuple[str, str]]]:
    """The ways to try: lists of commands, each with the line that stands for it."""
    live, workflow = session.move(move.workflow), move.workflow
    reverse_all, cancel = ("reversetraffic", f"reverse {workflow} all"), ("cancel", f"cancel {workflow}")
    if not live:
        return [[reverse_all], [cancel]] if shown.action == COMPLETE else []
    if not live.switched:
        return [[cancel]]
    changed = [it for it in shown.types if it in live.switched]
    lists = dict.fromkeys([*[",".join(changed)] * bool(changed), ",".join(live.switched)])
    some = [[(f"reversetraffic --tablet-types {it}", f"reverse {workflow} {it}")] for it in lists]
    return [*some, [reverse_all, cancel]]


def _tried(session: Session, states: States, move: Moved, way: Sequence[tuple[str, str]]) -> WayBack:
    """What a way back is answered, and where it leads."""
    *answers, dump = session.ask([*(line for _, line in way), "dump"])
    names, lines = tuple(name for name, _ in way), tuple(line for _, line in way)
    refusal = next((it for it in answers if it != "ok"), None)
    return WayBack(names, lines, refusal or "ok", None if refusal else states.same_as(parse_dump(dump), move))


def not_returning(shown: CommandReport) -> list[str]:
    """What of the undos and the ways back of a command leads to another topology than it should, which no run may do."""
    undone = [f"an undo behind `{it.name}`" for it in shown.steps if it.undo and it.undo.answer == "ok" and not it.undo.is_as_before]
    returned = [f"the way back {', '.join(it.commands)}" for it in shown.ways_back if it.answer == "ok" and not it.same_as]
    return [f"command {shown.number}: {it} leads to another topology than all before" for it in (*undone, *returned)]
