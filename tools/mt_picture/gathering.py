"""The facts of a script: its lines are run again up to each column's last one, and the program is asked what stands there."""
from __future__ import annotations

from collections.abc import Iterable
from concurrent.futures import ThreadPoolExecutor

from mt_picture.columns import CannotDraw, folded, refusal_name
from mt_picture.facts import Column, Facts, Line
from mt_picture.history import Columns, History
from mt_picture.moves import moves_begun
from mt_picture.script import Script
from mt_runs.program import Program
from mt_runs.refusals import Refusal, ScriptPage
from mt_runs.topology import parse_dump

AT_ONCE = 4  # runs


def gather(program: Program, script: Script, page: ScriptPage) -> Facts:
    """The facts of a script. Raises `CannotDraw` if it begins no move or has too many columns, `ProgramFailed` as a run does."""
    *answers, dump = program.answers([*script.lines, "dump"])
    moves = moves_begun(script, answers, parse_dump(dump))
    if not moves:
        raise CannotDraw("the script begins no move")
    columns = Columns(program, script, answers, folded(script, answers), moves)
    with ThreadPoolExecutor(AT_ONCE) as pool:
        behind = list(pool.map(columns.behind, columns.places))
    histories = [History(columns, behind, place) for place in range(len(moves))]
    return Facts(
        title=script.title or f"{moves[0].workflow} moves {', '.join(moves[0].tables)} from {moves[0].source} to {moves[0].target}",
        watchers=script.watchers,
        lines=[Line(script.shown(place), answer, script.notes.get(place)) for place, answer in enumerate(answers)],
        refusals=refusals_of(answers, page),
        moves=[it.move_facts() for it in histories],
        columns=[Column(lines.start + 1, lines.stop, [it.state(place) for it in histories]) for place, lines in enumerate(columns.places)],
    )


def refusals_of(answers: Iterable[str], page: ScriptPage) -> dict[str, dict[str, str]]:
    """What docs/SCRIPT.md says of each refusal that was answered, without its marks."""
    told = {name: page.refusal_of(answer) for answer in answers if (name := refusal_name(answer))}
    return plain_refusals(it for it in told.values() if it)


def plain_refusals(refusals: Iterable[Refusal]) -> dict[str, dict[str, str]]:
    """Refusals by their names as the document has them."""
    return {it.name: {"when": _plain(it.when), "what_to_do": _plain(it.what_to_do)} for it in refusals}


def _plain(text: str) -> str:
    return text.replace("`", "")
