/** The ways of a move: the way back from a line, which is tried, and the steps that a switch in one line takes; as tools/mt_picture/ways.py finds them. */

import { isRefusal } from "./asking.mjs";
import { stepNumbers } from "./plan.mjs";
import { wordsOfLine } from "./script.mjs";
import { parsedShow, streamWord } from "./show.mjs";
import { parsedDump, partOf } from "./topology.mjs";

/** @typedef {import("./asking.mjs").Ask} Ask */
/** @typedef {import("./show.mjs").ShownMove} ShownMove */
/** @typedef {import("./moves.mjs").Begun} Begun */

/**
 * A way back that was tried: its lines up to the first that was refused, their answers, and what the move has of the topology behind them.
 * @typedef {{lines: string[], answers: string[], part: string}} Trial
 */

export const DRIVE_VERBS = ["switch", "reverse"];
const MOST_TRIES = 64; // of a step by a drive, which lets a stream read so many entries between:
const ENTRIES_AT_ONCE = 100;
const NOT_LEVEL = "refused F18 NotLevel";

/**
 * The lines that lead back from where a move stands: of an open way each undo, of switched traffic the reversal, else the cancel.
 * @param {ShownMove} shown
 */
function linesBack({ name, way, switched }) {
  if (way) return Array.from({ length: Math.max(way.done, 1) }, (_, place) => `undo ${name} ${way.done - place}`);
  return [switched.length ? `reverse ${name} all` : `cancel ${name}`];
}

/**
 * Tries the way back from behind some lines.
 * @param {Ask} ask
 * @param {string[]} before
 * @param {Begun} move
 * @param {ShownMove} shown
 * @returns {Promise<Trial>}
 */
export async function tryBack(ask, before, move, shown) {
  const lines = linesBack(shown);
  const answers = await ask(before, [...lines, "dump"]);
  const dump = answers.pop() ?? "";
  const refused = answers.findIndex(isRefusal);
  const tried = refused < 0 ? lines.length : refused + 1;
  return { lines: lines.slice(0, tried), answers: answers.slice(0, tried), part: partOf(parsedDump(dump), move) };
}

/** @param {boolean} back @returns {"back" | "forward"} */
function directionOf(back) {
  return back ? "back" : "forward";
}

/**
 * An open way as facts.
 * @param {import("./show.mjs").OpenWay} way
 * @param {string[]} shards
 * @returns {import("./facts.mjs").Way}
 */
export function wayFacts({ back, types, done, undoing }, shards) {
  return { direction: directionOf(back), types, steps: stepNumbers(types, back, shards), done, undoing };
}

/**
 * The steps that a `switch` or a `reverse` took behind some lines, by its answer. Of one that gave itself up they are counted by taking them one by one.
 * @param {Ask} ask
 * @param {string[]} before
 * @param {{line: string, answer: string}} asked
 * @param {string[]} shards
 * @returns {Promise<import("./facts.mjs").Drive>}
 */
export async function driveFacts(ask, before, { line, answer }, shards) {
  const [verb, workflow, ...types] = wordsOfLine(line);
  const begun = [...before, [`begin-${verb}`, workflow, ...types].join(" ")];
  const [shown] = await ask(begun, [`show ${workflow}`]);
  const { way } = parsedShow(shown);
  if (!way) throw new Error(`behind ${begun[begun.length - 1]} no way of ${workflow} is open`);
  const steps = stepNumbers(way.types, way.back, shards);
  const [outcome] = answer.split(" ");
  const undone = outcome === "abandoned";
  const stopped = outcome === "stopped" ? Number(answer.split(" ").pop()) : steps.length;
  const done = undone ? await reachedBy(ask, begun, workflow, way.back) : stopped;
  return { direction: directionOf(way.back), types: way.types, steps, done, undone };
}

/**
 * How many steps of a way are done until one is refused, with turns of the streams between, as a drive has them.
 * @param {Ask} ask
 * @param {string[]} begun
 * @param {string} workflow
 * @param {boolean} back
 */
async function reachedBy(ask, begun, workflow, back) {
  let [lines, done, tries] = [begun, 0, 1];
  for (;;) {
    const step = `step ${workflow} ${done}`;
    const [shown, answer] = await ask(lines, [`show ${workflow}`, step]);
    if (answer === "ok") [lines, done, tries] = [[...lines, step], done + 1, 1];
    else if (answer === NOT_LEVEL && tries < MOST_TRIES) [lines, tries] = [[...lines, ...feedingTurns(parsedShow(shown), back)], tries + 1];
    else return done;
  }
}

/**
 * A turn of each stream that feeds the other side.
 * @param {ShownMove} move
 * @param {boolean} back
 */
function feedingTurns(move, back) {
  const direction = directionOf(back);
  return [...move[direction]].map(([shard, it]) => `advance ${move.name} ${streamWord(direction, shard)} ${it.position} ${ENTRIES_AT_ONCE}`);
}
