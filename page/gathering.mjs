/** The facts of a script: its lines are run again up to each column's last one, and the controller is asked what stands there. */

import { refusalIn } from "./facts.mjs";
import { askBehind, moveFacts, stateBehind } from "./history.mjs";
import { CannotDraw, columnsOf, movesBegun } from "./moves.mjs";
import { withoutReturn } from "./script.mjs";
import { parsedDump } from "./topology.mjs";

/** @typedef {import("./script.mjs").Script} Script */
/** @typedef {import("./facts.mjs").Facts} Facts */
/** @typedef {Record<string, {when: string, what_to_do: string}>} Refusals */

/**
 * What was asked behind columns, for lines that begin so: it holds for each script that begins with the same lines up to the column's end.
 * @typedef {{watchers: string[], lines: string[], behind: Map<string, import("./history.mjs").Behind>}} Known
 */

/** @returns {Known} */
export function nothingKnown() {
  return { watchers: [], lines: [], behind: new Map() };
}

/**
 * What is still known of a script, whose lines may be others than before from some place on.
 * @param {Known} known
 * @param {Script} script
 * @returns {Known}
 */
export function stillKnown(known, { lines, watchers }) {
  if (watchers.join(" ") !== known.watchers.join(" ")) return { ...nothingKnown(), watchers, lines };
  const differs = lines.findIndex((line, place) => line !== known.lines[place]);
  if (differs < 0) return known; // a beginning of the lines that are known
  const kept = [...known.behind].filter(([key]) => Number(key.split("-")[1]) <= differs);
  return { watchers, lines, behind: new Map(kept) };
}

/**
 * The facts of a script, as docs/PICTURE.md defines them. What is asked is kept in `known`. Throws `CannotDraw` if there is no picture of it.
 * @param {import("./asking.mjs").Ask} ask
 * @param {Script} script
 * @param {Refusals} refusals
 * @param {Known} known
 * @returns {Promise<Facts>}
 */
export async function gatheredFacts(ask, script, refusals, known) {
  const { lines, watchers } = script;
  const answers = await ask([], [...lines, "dump"]);
  const moves = movesBegun(lines, answers, parsedDump(answers.pop() ?? ""));
  if (!moves.length) throw new CannotDraw("the script begins no move");
  const told = { lines, answers, moves };
  const columns = columnsOf(lines, answers);
  const behind = [];
  for (const column of columns) {
    const key = `${column.start}-${column.stop}`;
    const found = known.behind.get(key) ?? (await askBehind(ask, told, column));
    known.behind.set(key, found);
    behind.push(found);
  }
  const histories = moves.map((move, place) => ({ told, columns, behind: behind.map((it) => upTo(it, moves.length)), place, move }));
  return {
    version: 1,
    title: script.title || titleOf(moves[0]),
    watchers,
    lines: linesTold(script, answers),
    refusals: refusalsOfAnswers(answers, refusals),
    moves: histories.map(moveFacts),
    columns: columns.map(({ start, stop }, number) => ({ first: start + 1, last: stop, moves: histories.map((it) => stateBehind(it, number)) })),
  };
}

/**
 * What was asked behind a column, with nothing for moves that begin behind it.
 * @param {import("./history.mjs").Behind} behind
 * @param {number} count of moves
 */
function upTo({ looked, streams, trials, drives }, count) {
  /** @template T @param {T[]} list @param {T} none @returns {T[]} */
  const filled = (list, none) => Array.from({ length: count }, (_, place) => list[place] ?? none);
  const behind = { ...looked, shown: filled(looked.shown, null), reads: filled(looked.reads, []) };
  return { looked: behind, streams: filled(streams, []), trials: filled(trials, null), drives: filled(drives, null) };
}

/** @param {import("./moves.mjs").Begun} move */
function titleOf({ workflow, tables, source, target }) {
  return `${workflow} moves ${tables.join(", ")} from ${source} to ${target}`;
}

/**
 * The lines of a script as they are shown, with their answers.
 * @param {Script} script
 * @param {string[]} answers
 */
export function linesTold({ lines, notes }, answers) {
  return answers.map((answer, place) => ({ text: withoutReturn(lines[place]), answer, note: notes.get(place) ?? null }));
}

/**
 * What docs/SCRIPT.md says of each refusal that was answered.
 * @param {string[]} answers
 * @param {Refusals} refusals
 * @returns {Refusals}
 */
export function refusalsOfAnswers(answers, refusals) {
  const names = answers.map((answer) => refusalIn(answer) ?? "").filter((name) => name in refusals);
  return Object.fromEntries([...new Set(names)].map((name) => [name, refusals[name]]));
}
