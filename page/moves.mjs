/** The moves that a script begins, and which of its lines stand in one column; as tools/mt_picture/moves.py and columns.py tell them. */

import { isClientLine } from "./clients.mjs";
import { refusalIn } from "./facts.mjs";
import { wordsOfLine } from "./script.mjs";

/** @typedef {import("./topology.mjs").Topology} Topology */

/**
 * A move that a script begins: the places of its `create` and of the line that ends it, null if none does, from 0 on.
 * @typedef {{workflow: string, source: string, target: string, tables: string[], shards: string[], created: number, ended: number | null}} Begun
 *
 * The places of a column's lines: the first, and the one behind the last.
 * @typedef {{start: number, stop: number}} Places
 */

const LONG_SCRIPT = 90; // lines, from which on neighbours of a kind share a column
const MOST_COLUMNS = 400;

/** There is no picture of a script; the text says why. */
export class CannotDraw extends Error {}

/** @param {Begun} move @param {number} place */
export function standsAt(move, place) {
  return move.created <= place;
}

/** @param {Begun} move @param {number} place */
export function livesAt(move, place) {
  return standsAt(move, place) && (move.ended === null || place < move.ended);
}

/**
 * The moves that a script begins, in the order of their beginnings, by its answers and the topology that it leaves.
 * @param {string[]} lines
 * @param {string[]} answers
 * @param {Topology} topology
 * @returns {Begun[]}
 */
export function movesBegun(lines, answers, topology) {
  const words = lines.map(wordsOfLine);
  const creates = words.flatMap((it, place) => (it[0] === "create" && answers[place] === "ok" ? [place] : []));
  return creates.map((created) => {
    const [, workflow, source, target, tables] = words[created];
    const ended = words.findIndex((it, place) => place >= created && answers[place] === "ok" && isEndOf(it, workflow));
    // a keyspace keeps the shards that it was made with, so those of the last topology are those of all
    const shards = topology.keyspaces.get(target)?.shards ?? [];
    return { workflow, source, target, tables: tables.split(","), shards, created, ended: ended < 0 ? null : ended };
  });
}

/** @param {string[]} words @param {string} workflow */
function isEndOf(words, workflow) {
  return words.length === 2 && ["cancel", "complete"].includes(words[0]) && words[1] === workflow;
}

/**
 * The places of the lines of each column: the lines in front of the first `create` are one, and behind it each line is one; but in a long script
 * neighbouring lines of clients, or turns of streams, that were all answered, or all refused alike, share one. Throws `CannotDraw` if they are too many.
 * @param {string[]} lines
 * @param {string[]} answers
 * @returns {Places[]}
 */
export function columnsOf(lines, answers) {
  const created = lines.findIndex((line) => wordsOfLine(line)[0] === "create");
  const first = created < 0 ? lines.length : created;
  const kinds = lines.map((line, place) => ({ kind: sharedKind(line), refusal: refusalIn(answers[place]) }));
  /** @param {number} place */
  const joins = (place) => place > first && kinds[place].kind !== null && JSON.stringify(kinds[place]) === JSON.stringify(kinds[place - 1]);
  const behind = lines.flatMap((_, place) => (place >= first && !(lines.length > LONG_SCRIPT && joins(place)) ? [place] : []));
  const starts = first ? [0, ...behind] : behind;
  if (starts.length > MOST_COLUMNS) throw new CannotDraw(`the script would have ${starts.length} columns, and ${MOST_COLUMNS} can be drawn`);
  return starts.map((start, number) => ({ start, stop: starts[number + 1] ?? lines.length }));
}

/** @param {string} line */
function sharedKind(line) {
  if (isClientLine(line)) return "client";
  return wordsOfLine(line)[0] === "advance" ? "turn" : null;
}
