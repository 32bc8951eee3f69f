/** The lines by which clients ask for rows, and where in a move's lanes each stands; as tools/mt_picture/clients.py tells them. */

import { wordsOfLine } from "./script.mjs";
import { keyIn, shardOf } from "./shards.mjs";

/** @typedef {import("./moves.mjs").Begun} Begun */

const WRITE_VERBS = ["insert", "update", "append", "delete"];
const ROW_VERBS = [...WRITE_VERBS, "get"];

/**
 * A line for a row: whether it writes, the parts of its name, its key, and whether it passes the rules by (`at`).
 * @typedef {{write: boolean, keyspace: string | null, table: string, type: string, key: bigint, pastRules: boolean}} ClientLine
 */

/**
 * Whether a line asks for a row, by its first words.
 * @param {string} line
 */
export function isClientLine(line) {
  const words = wordsOfLine(line);
  return ROW_VERBS.includes(words[0]) || (words[0] === "at" && ROW_VERBS.includes(words[2]));
}

/**
 * A line for a row that has the form of one; null for every other. Its names aren't tested.
 * @param {string} line
 * @returns {ClientLine | null}
 */
function readClientLine(line) {
  const given = wordsOfLine(line);
  const pastRules = given[0] === "at" && given.length > 2;
  const [verb, name, number] = pastRules ? [given[2], given[1], given[3]] : given;
  const key = number === undefined ? null : keyIn(number);
  if (!ROW_VERBS.includes(verb) || key === null) return null;
  const [full, type] = parted(name, "@");
  const [keyspace, table] = full.includes(".") ? parted(full, ".") : [null, full];
  return { write: WRITE_VERBS.includes(verb), keyspace, table, type: type || "primary", key, pastRules };
}

/**
 * What stands before the first of a sign, and what behind it.
 * @param {string} text
 * @param {string} sign
 */
function parted(text, sign) {
  const at = text.indexOf(sign);
  return at < 0 ? [text, ""] : [text.slice(0, at), text.slice(at + 1)];
}

/**
 * The lines of clients among some, each with whether it was refused, that ask for a move's tables; those that ask alike are counted together. Of one that
 * has ended only the bare names of its tables are its own.
 * @param {{line: string, refused: boolean}[]} lines
 * @param {Begun} move
 * @param {boolean} live
 * @returns {import("./facts.mjs").Query[]}
 */
export function queriesOf(lines, move, live) {
  /** @type {Map<string, import("./facts.mjs").Query>} */
  const found = new Map();
  for (const { line, refused } of lines) {
    const read = readClientLine(line);
    if (!read || !asksFor(read, move, live)) continue;
    const place = placeOf(read, move, refused);
    const key = JSON.stringify(place);
    found.set(key, { ...place, count: (found.get(key)?.count ?? 0) + 1 });
  }
  return [...found.values()];
}

/** @param {ClientLine} line @param {Begun} move @param {boolean} live */
function asksFor(line, move, live) {
  if (!move.tables.includes(line.table)) return false;
  const isOfSide = line.keyspace === move.source || line.keyspace === move.target;
  if (line.pastRules) return line.type === "primary" && isOfSide;
  return line.keyspace === null || (live && isOfSide);
}

/** @param {ClientLine} line @param {Begun} move @param {boolean} refused */
function placeOf(line, move, refused) {
  const shard = line.pastRules && line.keyspace === move.source ? "-" : shardOf(move.shards, line.key);
  return { table: line.table, type: line.type, shard, at: line.pastRules ? line.keyspace : null, write: line.write, refused };
}
