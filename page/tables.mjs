/** The facts as tables of HTML: each line with its answer, and what stands behind each column. */

import { TYPES, numberAt, numbersOf, refusalIn, serverOf } from "./facts.mjs";
import { cut, escaped } from "./svg.mjs";
import { moveSentence, phaseOf, refusalWords, streamTexts, wayBackOf } from "./words.mjs";

/** @typedef {import("./facts.mjs").Facts} Facts */
/** @typedef {import("./facts.mjs").Move} Move */
/** @typedef {import("./facts.mjs").Column} Column */
/** @typedef {import("./facts.mjs").State} State */

const LONGEST_ANSWER = 160;

/**
 * The lines with their answers, the comments in front of them, and what refusals mean.
 * @param {Facts} facts
 */
export function linesTable(facts) {
  const rows = facts.lines.map((line, place) => {
    const note = line.note ? `<tr class="note"><td></td><td colspan="2">${escaped(line.note)}</td></tr>` : "";
    const refusal = refusalIn(line.answer);
    const means = refusal ? `<span class="means">${escaped(refusalWords(facts, refusal))}</span>` : "";
    const cells = `<th scope="row">${numberAt(facts, place)}</th><td><code>${escaped(cut(line.text, LONGEST_ANSWER))}</code></td>`;
    return `${note}<tr${refusal ? ' class="refused"' : ""}>${cells}<td><code>${escaped(cut(line.answer, LONGEST_ANSWER))}</code>${means}</td></tr>`;
  });
  return tableOf(["Line", "The line", "Its answer"], rows);
}

/**
 * What stands behind each column, for each move: a table.
 * @param {Facts} facts
 */
export function accountTable(facts) {
  const heads = ["Lines", "Phase", "Who answers by the table's name", "Which primaries take clients", "Streams", "Steps done", "The way back from here"];
  const tables = facts.moves.map((move, index) => {
    const rows = facts.columns.map((column) => accountRow(facts, move, column, column.moves[index]));
    return `<p>${escaped(moveSentence(move))}</p>${tableOf(heads, rows)}`;
  });
  return tables.join("");
}

/** @param {Facts} facts @param {Move} move @param {Column} column @param {State | null} state */
function accountRow(facts, move, column, state) {
  if (!state) return "";
  const cells = [
    [phaseOf(facts, move, state).texts[0]],
    namesTold(state),
    primariesTold(state),
    state.streams.map((stream) => `${stream.direction}${stream.shard === "-" ? "" : ` ${stream.shard}`} ${streamTexts(stream)[0]}`),
    stepsDone(state),
    [wayBackOf(state).texts[0]],
  ];
  return `<tr><th scope="row">${numbersOf(column)}</th>${cells.map((lines) => `<td>${lines.map(escaped).join("<br>")}</td>`).join("")}</tr>`;
}

/** @param {State} state */
function namesTold(state) {
  return Object.entries(state.by_name).flatMap(([table, types]) =>
    Object.entries(types).map(([type, shards]) => `${table}, ${TYPES[type]}: ${byShard(shards, (value) => serverOf(value, table))}`),
  );
}

/** @param {State} state */
function primariesTold(state) {
  return Object.entries(state.primaries).flatMap(([keyspace, tables]) =>
    Object.entries(tables).map(([table, shards]) => `${keyspace}.${table}: ${byShard(shards, String)}`),
  );
}

/**
 * What is so of each shard, or of all alike.
 * @param {Record<string, string>} shards
 * @param {(value: string) => string} said
 */
function byShard(shards, said) {
  const values = Object.entries(shards).map(([shard, value]) => [shard, said(value)]);
  if (new Set(values.map(([, value]) => value)).size === 1) return values[0][1];
  return values.map(([shard, value]) => `${shard} ${value}`).join(", ");
}

/** @param {State} state */
function stepsDone({ way, drive }) {
  if (way) return [`${way.done} of ${way.steps.length}${way.direction === "back" ? ", back" : ""}${way.undoing ? ", undoing" : ""}`];
  if (!drive) return [];
  return [`${drive.done} of ${drive.steps.length}${drive.direction === "back" ? ", back" : ""} in one line${drive.undone ? ", then undone" : ""}`];
}

/** @param {string[]} heads @param {string[]} rows */
function tableOf(heads, rows) {
  const head = heads.map((text) => `<th scope="col">${escaped(text)}</th>`).join("");
  return `<table><thead><tr>${head}</tr></thead><tbody>${rows.join("")}</tbody></table>`;
}
