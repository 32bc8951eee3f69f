/** How the facts are put into words, in the drawing and in the tables beside it. */

import { TYPES, counted, lineCount, linesOf, numbersOf, refusalIn, refusalsOf, stretches, wordsIn } from "./facts.mjs";
import { BROWN, GREEN, RED, SOFT, TEAL, cut } from "./svg.mjs";

/** @typedef {import("./facts.mjs").Facts} Facts */
/** @typedef {import("./facts.mjs").Column} Column */
/** @typedef {import("./facts.mjs").Move} Move */
/** @typedef {import("./facts.mjs").State} State */

const CLIENT_VERBS = ["insert", "update", "append", "delete", "get"];
const WORKFLOW_VERBS = ["step", "undo", "switch", "reverse", "begin-switch", "begin-reverse", "advance"];
/** @type {Record<string, string>} */
const ENDS = { cancel: "cancelled", complete: "completed" };
/** @type {Record<string, string>} */
const COLOURS_BACK = { cancel: GREEN, undo: TEAL, reverse: BROWN };

/**
 * The phase of a move behind a column, in words from long to short.
 * @param {Facts} facts
 * @param {Move} move
 * @param {State | null} state
 * @returns {{kind: string, texts: string[]}}
 */
export function phaseOf(facts, move, state) {
  if (!state) return { kind: "none", texts: ["not begun", "before"] };
  if (!state.live) return { kind: "none", texts: endTexts(facts, move) };
  if (state.way) return { kind: "way", texts: wayTexts(state.way) };
  if (state.streams.some((stream) => stream.copied === false)) return { kind: "rest", texts: ["copying"] };
  if (!state.switched.length) return { kind: "rest", texts: ["copied, not switched", "copied"] };
  const types = state.switched.length === Object.keys(TYPES).length ? "" : `: ${state.switched.join(", ")}`;
  return { kind: "switched", texts: [`switched${types}`, "switched"] };
}

/** @param {import("./facts.mjs").Way} way */
function wayTexts(way) {
  if (way.undoing) return ["undoing"];
  return way.direction === "back" ? ["switching back"] : ["switching over"];
}

/**
 * How a move ended: by which line, if it is told.
 * @param {Facts} facts
 * @param {Move} move
 */
function endTexts(facts, { ended }) {
  const [line] = ended === null ? [] : linesOf(facts, { first: ended, last: ended, moves: [] });
  return line ? [`ended: ${ENDS[wordsIn(line.text)[0]]}`, "ended"] : ["ended"];
}

/**
 * The way back that was tried behind a column, in words from long to short, with its colour.
 * @param {State} state
 * @returns {{colour: string, texts: string[]}}
 */
export function wayBackOf(state) {
  const tried = state.way_back;
  if (!tried) return { colour: SOFT, texts: ["the move has ended", "ended"] };
  const verb = wordsIn(tried.lines[0])[0];
  const [answer] = tried.answers.slice(-1);
  const refusal = refusalIn(answer);
  if (refusal === "F19 PastJournal") return { colour: RED, texts: ["none: finish the steps, then go back", "none: finish the steps", "none"] };
  if (refusal) return { colour: RED, texts: [`${verb} is answered ${answer}`, `${verb}: ${refusal}`, "refused"] };
  if (tried.as_before === null) return { colour: RED, texts: [`${verb}: not as before`] };
  if (tried.as_before === "unseen") return { colour: COLOURS_BACK[verb], texts: [`${verb}: is answered ok`, verb] };
  const where = verb === "cancel" ? "create" : state.way?.direction === "back" ? "the reversal" : "the switch";
  return { colour: COLOURS_BACK[verb], texts: [`${verb}: as before ${where}`, verb] };
}

/**
 * Where a stream stands, in words from long to short.
 * @param {import("./facts.mjs").Stream} stream
 */
export function streamTexts(stream) {
  const { state, position, behind, rows } = stream;
  if (state !== "running") return [`${state} at ${position}`, `at ${position}`, `${position}`];
  const copy = stream.copied !== false ? "" : rows ? `, ${counted(rows, "row")} to copy` : ", copying";
  if (behind) return [`at ${position}, ${behind} behind${copy && ", copying"}`, `at ${position}, ${behind} behind`, `${behind} behind`, `−${behind}`];
  return [`at ${position}${copy}`, `at ${position}`, `${position}`];
}

/**
 * What stands below a column, in few words.
 * @param {Facts} facts
 * @param {Column} column
 */
export function labelOf(facts, column) {
  const lines = linesOf(facts, column);
  const isSetUp = column.first === 1 && column.moves.every((state) => state === null);
  const count = lineCount(column);
  const text = isSetUp ? `${counted(count, "line")} of set-up` : count > 1 ? severalLabel(lines, count) : lineLabel(lines[0].text);
  const refused = refusalsOf(facts, column);
  return refused.length ? `${cut(text, 34)}  ${refused.join(", ")}` : cut(text, 40);
}

/**
 * Several lines in few words: of what kind they are, if all are told and of one.
 * @param {import("./facts.mjs").Line[]} lines those that are told
 * @param {number} count how many there are
 */
function severalLabel(lines, count) {
  const verbs = lines.map(({ text }) => wordsIn(text)[0]);
  if (lines.length < count || !verbs.every((verb) => (verb === "advance") === (verbs[0] === "advance"))) return counted(count, "line");
  if (verbs[0] === "advance") return `${count} turns of streams`;
  return counted(count, verbs.every((verb) => [...CLIENT_VERBS, "at"].includes(verb)) ? "client line" : "line");
}

/**
 * A line in few words.
 * @param {string} text
 */
function lineLabel(text) {
  const words = wordsIn(text);
  const [verb] = words;
  if (WORKFLOW_VERBS.includes(verb) && words.length > 2) return `${verb} ${words[2]}`;
  if (["create", "cancel", "complete", "show"].includes(verb)) return verb;
  if (CLIENT_VERBS.includes(verb) && words.length > 2) return `${verb} ${words[1]} ${shortKey(words[2])}`;
  if (verb === "at" && words.length > 3) return `${words[2]} ${shortKey(words[3])} at ${withoutTable(words[1])}`;
  return words.join(" ");
}

/**
 * A name without its table, as `commerce@replica`.
 * @param {string} name
 */
function withoutTable(name) {
  return name.replace(/\.[^@]*/, "");
}

/** @param {string} key */
function shortKey(key) {
  return key.length < 8 ? key : `${key.slice(0, 2)}..${key.slice(-3)}`;
}

/**
 * What kind of line stands in a column: it decides how wide it is.
 * @param {Facts} facts
 * @param {Column} column
 * @returns {"several" | "quiet" | "whole" | "turn" | "one"}
 */
export function kindOf(facts, column) {
  if (column.first !== column.last) return "several";
  const [{ text, answer }] = linesOf(facts, column);
  const [verb, , third] = wordsIn(text);
  const isRefused = refusalIn(answer) !== null;
  if (["switch", "reverse"].includes(verb) || (["create", "cancel", "complete"].includes(verb) && !isRefused)) return "whole";
  if (verb === "advance") return "turn";
  const asks = ["get", "show", "rules", "dump"].includes(verb) || (verb === "at" && third === "get");
  return asks && !isRefused ? "quiet" : "one";
}

/**
 * A refusal in words: when a line is refused so, and what to do.
 * @param {Facts} facts
 * @param {string} name
 */
export function refusalWords(facts, name) {
  const told = facts.refusals[name];
  return told ? `${told.when}. What to do: ${told.what_to_do}` : "docs/SCRIPT.md has it";
}

/**
 * A move in a sentence.
 * @param {Move} move
 */
export function moveSentence(move) {
  const shards = move.shards.length > 1 ? `, which has ${move.shards.length} shards` : "";
  return `${move.workflow} moves ${move.tables.join(", ")} from ${move.source} to ${move.target}${shards}.`;
}

/**
 * The whole picture for those who can't see it: the moves, their phases by lines, and what was refused.
 * @param {Facts} facts
 */
export function descriptionOf(facts) {
  const sentences = facts.moves.flatMap((move, index) => [moveSentence(move), phasesSentence(facts, move, index)]);
  const refused = facts.columns.filter((column) => refusalsOf(facts, column).length);
  const told = refused.map((column) => `${numbersOf(column)} ${refusalsOf(facts, column).join(", ")}`);
  return [...sentences, told.length ? `Refused lines: ${told.join("; ")}.` : "No line is refused."].join(" ");
}

/** @param {Facts} facts @param {Move} move @param {number} index */
function phasesSentence(facts, move, index) {
  const phases = facts.columns.map((column) => phaseOf(facts, move, column.moves[index]).texts[0]);
  const told = stretches(phases).map(({ from, to, value }) => `lines ${facts.columns[from].first} to ${facts.columns[to].last} ${value}`);
  return `Behind ${told.join("; ")}.`;
}
