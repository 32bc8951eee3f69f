/** The script with the answers beside its lines, and what is told of one line, as text of HTML. */

import { refusalIn } from "./facts.mjs";
import { isSilent } from "./script.mjs";
import { element, escaped } from "./svg.mjs";

/** @typedef {import("./script.mjs").Script} Script */
/** @typedef {import("./gathering.mjs").Refusals} Refusals */

/**
 * The rows of a text: the number of each, its line, and beside it the answer, if it was run. The last line that was run is the current one.
 * @param {string} text
 * @param {Script} script whose rows are those of its lines
 * @param {string[]} answers to its first lines
 */
export function editorRows(text, script, answers) {
  const places = new Map(script.rows.map((row, place) => [row, place]));
  const rows = text.split("\n").map((line, row) => editorRow(line, row, places.get(row), answers));
  return rows.join("");
}

/** @param {string} line @param {number} row @param {number | undefined} place @param {string[]} answers */
function editorRow(line, row, place, answers) {
  const answer = place === undefined ? undefined : answers[place];
  const kinds = [place === undefined ? "silent" : answer === undefined ? "waits" : "done"];
  if (answer !== undefined && refusalIn(answer)) kinds.push("refused");
  if (place !== undefined && place === answers.length - 1) kinds.push("current");
  const told = answer === undefined ? "" : element("samp", { class: "answer" }, answerShown(answer));
  const number = element("span", { class: "number" }, String(row + 1));
  // a line that is empty is as high as any other
  const shown = element("span", { class: "line", "aria-hidden": "true" }, escaped(line) || "\u200b");
  return element("li", { class: kinds.join(" "), "data-row": row }, number, shown, told);
}

/**
 * An answer beside its line. That a line is refused is shown by a mark too, which is all where there is little room.
 * @param {string} answer
 */
export function answerShown(answer) {
  const [verb, ...rest] = answer.split(" ");
  if (verb !== "refused") return escaped(answer);
  return element("span", { class: "verb" }, "refused ") + escaped(rest.join(" "));
}

/**
 * A line with its whole answer; of a refusal when it comes, and what to do.
 * @param {number} row
 * @param {string} line
 * @param {string | undefined} answer undefined if the line isn't run yet
 * @param {Refusals} refusals
 */
export function lineTold(row, line, answer, refusals) {
  const asked = `Line ${row + 1} ${element("code", {}, escaped(line.trim()))}`;
  if (isSilent(line)) return element("p", {}, `Line ${row + 1} is a comment or empty: it says nothing.`);
  if (answer === undefined) return element("p", {}, `${asked} isn't run yet.`);
  const told = element("p", {}, `${asked} ${element("span", { class: "arrow" }, "→")} ${element("samp", {}, escaped(answer))}`);
  const name = refusalIn(answer);
  const known = name ? refusals[name] : undefined;
  return told + (known ? refusalTold(known) : "");
}

/**
 * What a refusal means.
 * @param {{when: string, what_to_do: string}} refusal
 */
export function refusalTold({ when, what_to_do }) {
  return partsTold([["When", when], ["What to do", what_to_do]]);
}

/**
 * Names with a text each.
 * @param {string[][]} parts
 */
export function partsTold(parts) {
  return element("dl", {}, ...parts.map(([name, text]) => element("dt", {}, escaped(name)) + element("dd", {}, escaped(text))));
}
