"""Clients that write, and streams that bring over what they wrote."""
from __future__ import annotations

from mt_rehearsal.documents import CannotRehearse
from mt_rehearsal.moved import Moved
from mt_rehearsal.report import Copied
from mt_rehearsal.session import Session
from mt_runs.program import ProgramFailed
from mt_runs.show import Move, parse_show, stream_word

MOST_ROUNDS = 1000  # of a turn of each stream, of 65,535 entries or rows


def write(session: Session, move: Moved) -> None:
    """A client writes each sample row by the bare name of its table, so that the streams have something to bring."""
    value = f"w{len(session.lines)}"
    session.take([f"update {table} {key} {value}" for table in move.tables for key in move.keys.values()])


def level(session: Session, move: Moved) -> Copied:
    """Has each stream that runs take turns until none has anything to do; gives how many rows were copied and how many entries were read."""
    rows = entries = 0
    shown = parse_show(session.ask([f"show {move.workflow}"])[0])
    for _ in range(MOST_ROUNDS):
        *answers, last = session.take([*_turns(shown), f"show {move.workflow}"])
        done = [_done(it) for it in answers]
        if not any(map(any, done)):
            return Copied(rows, entries)
        entries, rows = entries + sum(it[0] for it in done), rows + sum(it[1] for it in done)
        shown = parse_show(last)
    raise CannotRehearse(f"the streams of {move.workflow} aren't level after {MOST_ROUNDS} turns each")


def _turns(shown: Move) -> list[str]:
    """A turn of each stream that runs."""
    streams = [(way, shard, it) for way, of_way in (("forward", shown.forward), ("back", shown.back)) for shard, it in of_way.items()]
    return [f"advance {shown.name} {stream_word(way, shard)} {it.position} 65535" for way, shard, it in streams if it.is_running]


def _done(answer: str) -> tuple[int, int]:
    """How many entries a turn read, and how many rows it copied."""
    words = answer.split(" ")
    if words[0] != "events":
        raise ProgramFailed(f"mt answers `{answer}` to a turn of a stream")
    return int(words[1]), int(words[3])
