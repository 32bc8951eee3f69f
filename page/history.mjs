/** A move over the columns of a script: what was asked behind each, as facts; as tools/mt_picture/history.py has it. */

import { isRefusal, look, servedBy, streamsBehind } from "./asking.mjs";
import { queriesOf } from "./clients.mjs";
import { refusalIn } from "./facts.mjs";
import { livesAt, standsAt } from "./moves.mjs";
import { JOURNAL, stepNames } from "./plan.mjs";
import { wordsOfLine } from "./script.mjs";
import { partOf } from "./topology.mjs";
import { DRIVE_VERBS, driveFacts, tryBack, wayFacts } from "./ways.mjs";

/** @typedef {import("./asking.mjs").Ask} Ask */
/** @typedef {import("./moves.mjs").Begun} Begun */
/** @typedef {import("./moves.mjs").Places} Places */
/** @typedef {import("./facts.mjs").Stream} Stream */
/** @typedef {import("./facts.mjs").Drive} Drive */
/** @typedef {import("./ways.mjs").Trial} Trial */

/**
 * The lines of a script with their answers, and the moves that it begins.
 * @typedef {{lines: string[], answers: string[], moves: Begun[]}} Told
 *
 * What was asked behind a column: what stands there; of each move that lives its streams and its way back; and the whole switch that the column is.
 * @typedef {{looked: import("./asking.mjs").Looked, streams: Stream[][], trials: (Trial | null)[], drives: (Drive | null)[]}} Behind
 *
 * A move over all columns, by its place among the moves.
 * @typedef {{told: Told, columns: Places[], behind: Behind[], place: number, move: Begun}} History
 */

/**
 * Asks for all that a column shows.
 * @param {Ask} ask
 * @param {Told} told
 * @param {Places} column
 * @returns {Promise<Behind>}
 */
export async function askBehind(ask, told, column) {
  const before = told.lines.slice(0, column.stop);
  const looked = await look(ask, before, told.moves);
  /** @type {Behind} */
  const behind = { looked, streams: [], trials: [], drives: [] };
  for (const [number, move] of told.moves.entries()) {
    const shown = looked.shown[number];
    behind.streams.push(shown ? await streamsBehind(ask, before, shown) : []);
    behind.trials.push(shown ? await tryBack(ask, before, move, shown) : null);
    behind.drives.push(await driveOf(ask, told, column.start, move));
  }
  return behind;
}

/**
 * The switch or the reversal in one line that a column is of a move; null if it is none, or was refused as it began.
 * @param {Ask} ask
 * @param {Told} told
 * @param {number} place
 * @param {Begun} move
 */
async function driveOf(ask, { lines, answers }, place, move) {
  const [line, answer] = [lines[place], answers[place]];
  const words = wordsOfLine(line);
  if (!DRIVE_VERBS.includes(words[0]) || words[1] !== move.workflow || !livesAt(move, place) || answer.startsWith("refused ")) return null;
  return driveFacts(ask, lines.slice(0, place), { line, answer }, move.shards);
}

/**
 * The move itself.
 * @param {History} history
 * @returns {import("./facts.mjs").Move}
 */
export function moveFacts({ behind, place, move }) {
  const { workflow, source, target, tables, shards, created, ended } = move;
  const ways = behind.flatMap((it) => it.looked.shown[place]?.way ?? []).map((way) => (way.back ? "back" : "forward"));
  const drives = behind.flatMap((it) => it.drives[place] ?? []).map((drive) => drive.direction);
  const steps = stepNames(new Set([...ways, ...drives]));
  return { workflow, source, target, tables, shards, created: created + 1, ended: ended === null ? null : ended + 1, steps, journal: JOURNAL };
}

/**
 * The move behind a column; null if it hasn't begun.
 * @param {History} history
 * @param {number} column
 * @returns {import("./facts.mjs").State | null}
 */
export function stateBehind(history, column) {
  const { columns, behind, place, move } = history;
  if (!standsAt(move, columns[column].stop - 1)) return null;
  const { looked, streams, drives } = behind[column];
  const shown = looked.shown[place] ?? null;
  return {
    live: shown !== null,
    switched: shown?.switched ?? [],
    way: shown?.way ? wayFacts(shown.way, move.shards) : null,
    drive: drives[place] ?? null,
    streams: streams[place] ?? [],
    by_name: servedFacts(looked, place, true),
    primaries: servedFacts(looked, place, false),
    way_back: wayBackFacts(history, column),
    queries: queriesIn(history, column),
  };
}

/**
 * Who serves each table by its name, by type and shard; or which primaries are open to it, by keyspace and shard.
 * @param {import("./asking.mjs").Looked} looked
 * @param {number} place
 * @param {boolean} byName
 */
function servedFacts({ reads, topology }, place, byName) {
  /** @type {import("./facts.mjs").Served} */
  const found = Object.create(null); // a table may have the name of what other objects have
  for (const { read, answer } of reads[place].filter((it) => it.read.byName === byName)) {
    const [outer, inner] = byName ? [read.table, read.asked] : [read.asked, read.table];
    const shards = ((found[outer] ??= Object.create(null))[inner] ??= Object.create(null));
    shards[read.shard] = servedBy(read, answer, topology);
  }
  return found;
}

/**
 * The clients' lines of a column that ask for the move's tables. A line that hasn't the form of one is refused by another letter than F or T.
 * @param {History} history
 * @param {number} column
 */
function queriesIn({ told, columns, move }, column) {
  const { start, stop } = columns[column];
  const lines = told.lines.slice(start, stop).map((line, at) => ({ line, answer: told.answers[start + at] }));
  const wellFormed = lines.filter(({ answer }) => ["F", "T"].includes((refusalIn(answer) ?? "F")[0]));
  return queriesOf(wellFormed.map(({ line, answer }) => ({ line, refused: isRefusal(answer) })), move, livesAt(move, stop - 1));
}

/**
 * The way back that was tried behind a column, beside the topology from before that to which it leads.
 * @param {History} history
 * @param {number} column
 * @returns {import("./facts.mjs").WayBack | null}
 */
function wayBackFacts(history, column) {
  const { behind, columns, place, move } = history;
  const trial = behind[column].trials[place];
  if (!trial) return null;
  const first = firstColumnOf(history, column);
  const isDone = !trial.answers.some(isRefusal);
  const isSame = first > 0 && isDone && trial.part === partOf(behind[first - 1].looked.topology, move);
  return { lines: trial.lines, answers: trial.answers, as_before: isSame ? columns[first].start + 1 : null };
}

/**
 * The first column of what the way back from a column takes back: of the way that is open, of the switched traffic, or of the move.
 * @param {History} history
 * @param {number} column
 */
function firstColumnOf({ behind, place }, column) {
  const from = behind[column].looked.shown[place];
  let first = column;
  while (first > 0 && from && takesBack(behind[first - 1].looked.shown[place] ?? null, from)) first -= 1;
  return first;
}

/**
 * Whether what the way back takes back from a move that stands so has begun where it stood otherwise before.
 * @param {import("./show.mjs").ShownMove | null} before
 * @param {import("./show.mjs").ShownMove} from
 */
function takesBack(before, from) {
  if (!before) return false;
  if (from.way) return before.way !== null;
  return !from.switched.length || before.way !== null || before.switched.length > 0;
}
