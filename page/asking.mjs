/** What the controller tells of the moves behind a line, in runs that are thrown away; as tools/mt_picture/asking.py asks for it. */

import { TYPES } from "./facts.mjs";
import { livesAt, standsAt } from "./moves.mjs";
import { firstKey } from "./shards.mjs";
import { parsedShow, streamWord } from "./show.mjs";
import { ledTo, parsedDump } from "./topology.mjs";

/** @typedef {import("./moves.mjs").Begun} Begun */
/** @typedef {import("./show.mjs").ShownMove} ShownMove */
/** @typedef {import("./topology.mjs").Topology} Topology */
/** @typedef {import("./facts.mjs").Stream} Stream */

/**
 * Runs some lines with others behind them, and gives the answers to those. Nothing stays.
 * @typedef {(before: string[], more: string[]) => Promise<string[]>} Ask
 *
 * A read that tells who serves: of a table by its name, for a type (`asked` is the type), or of one at a primary (`asked` is the keyspace).
 * @typedef {{byName: boolean, asked: string, table: string, shard: string}} Read
 *
 * What stands behind a line: the topology; what `show` says of each move, null if it doesn't live; and the answers to the reads of each that has begun.
 * @typedef {{topology: Topology, shown: (ShownMove | null)[], reads: {read: Read, answer: string}[][]}} Looked
 */

const MOST_AT_ONCE = 65535; // entries that an advance may read
const TURN = /^events (\d+) rows (\d+)$/;

/**
 * Whether an answer names a refusal: of the line, or of a step that a whole switch gave itself up at, or stopped at.
 * @param {string} answer
 */
export function isRefusal(answer) {
  return /^(?:refused|abandoned|stopped) /.test(answer);
}

/** @param {Read} read */
function lineOfRead({ byName, asked, table, shard }) {
  const key = firstKey(shard);
  return byName ? `get ${table}@${asked} ${key}` : `at ${asked}.${table} get ${key}`;
}

/**
 * The reads that tell who serves a move's tables: by each name for each type, and at each primary, with a key of each shard.
 * @param {Begun} move
 * @returns {Read[]}
 */
function readsOf({ source, target, tables, shards }) {
  const types = Object.keys(TYPES);
  const byName = tables.flatMap((table) => types.flatMap((asked) => shards.map((shard) => ({ byName: true, asked, table, shard }))));
  const sides = [{ asked: source, shard: "-" }, ...shards.map((shard) => ({ asked: target, shard }))];
  return [...byName, ...tables.flatMap((table) => sides.map((side) => ({ byName: false, table, ...side })))];
}

/**
 * What stands behind some lines, in one run, as none of its questions changes anything.
 * @param {Ask} ask
 * @param {string[]} before
 * @param {Begun[]} moves
 * @returns {Promise<Looked>}
 */
export async function look(ask, before, moves) {
  const place = before.length - 1;
  const lives = moves.map((move) => livesAt(move, place));
  const reads = moves.map((move) => (standsAt(move, place) ? readsOf(move) : []));
  const shows = moves.filter((_, number) => lives[number]).map((move) => `show ${move.workflow}`);
  const [dump, ...answers] = await ask(before, ["dump", ...shows, ...reads.flat().map(lineOfRead)]);
  const next = answers[Symbol.iterator]();
  const shown = lives.map((live) => (live ? parsedShow(next.next().value ?? "") : null));
  const told = reads.map((part) => part.map((read) => ({ read, answer: next.next().value ?? "" })));
  return { topology: parsedDump(dump), shown, reads: told };
}

/**
 * Who serves by a read: the table that the rules lead to, or `open` of a primary; or the refusal, as it was answered.
 * @param {Read} read
 * @param {string} answer
 * @param {Topology} topology
 * @returns {string}
 */
export function servedBy(read, answer, topology) {
  if (isRefusal(answer)) return answer;
  if (!read.byName) return "open";
  const led = ledTo(topology, read.table, read.asked);
  if (led === null) throw new Error(`${lineOfRead(read)} was answered ${answer}, and by the rules that dump tells it leads nowhere`);
  return led;
}

/**
 * The streams of a move, in one run; of each that runs what one turn would read and copy. No turn of one stream of a move is seen by another that runs.
 * @param {Ask} ask
 * @param {string[]} before
 * @param {ShownMove} move
 * @returns {Promise<Stream[]>}
 */
export async function streamsBehind(ask, before, move) {
  /** @type {(direction: "forward" | "back") => {direction: "forward" | "back", shard: string, stream: import("./show.mjs").Shown}[]} */
  const of = (direction) => [...move[direction]].map(([shard, stream]) => ({ direction, shard, stream }));
  const streams = [...of("forward"), ...of("back")];
  const running = streams.filter(({ stream }) => stream.state === "running");
  const turns = running.map(({ direction, shard, stream }) => `advance ${move.name} ${streamWord(direction, shard)} ${stream.position} ${MOST_AT_ONCE}`);
  const answers = turns.length ? await ask(before, turns) : [];
  const told = new Map(running.map((it, place) => [it, turnOf(answers[place])]));
  return streams.map((it) => ({ direction: it.direction, shard: it.shard, ...it.stream, ...(told.get(it) ?? { behind: null, rows: null }) }));
}

/**
 * How many entries a turn read, and how many rows it copied.
 * @param {string} answer
 */
function turnOf(answer) {
  const found = TURN.exec(answer);
  if (!found) throw new Error(`an advance of a stream that runs was answered ${answer}`);
  return { behind: Number(found[1]), rows: Number(found[2]) };
}
