/** The last lines of a log, and what came of those that were sent from a page, as text of HTML. */

import { answerShown, partsTold, refusalTold } from "./editor.mjs";
import { refusalIn } from "./facts.mjs";
import { element, escaped } from "./svg.mjs";

/** @typedef {import("./gathering.mjs").Refusals} Refusals */

/**
 * A line of the log: its number, its text and its answer.
 * @typedef {[number, string, string]} Logged
 *
 * What came of a line that was sent: the lines that it stood for, as they were taken, and why it wasn't answered, if it wasn't.
 * @typedef {{taken: {line: string, answer: string, means: string[][]}[], problem: string | null}} Outcome
 *
 * A line that was sent from this page; no outcome is one that waits.
 * @typedef {{key: string, line: string, isSent: boolean, outcome: Outcome | null}} Sent
 */

/** @type {Record<string, string>} */
const NAMES = { form: "Form", when: "When", do: "What to do" };

/**
 * The rows of lines, of which one may be chosen.
 * @param {Logged[]} lines
 * @param {number | null} chosen
 */
export function rowsOf(lines, chosen) {
  return lines.map(([number, line, answer]) => {
    const kinds = [...(refusalIn(answer) ? ["refused"] : []), ...(number === chosen ? ["current"] : [])];
    const shown = element("button", { type: "button", "data-number": number }, escaped(line));
    const told = element("samp", { class: "answer", title: answer }, answerShown(answer));
    return element("li", { class: kinds.join(" ") }, element("span", { class: "number" }, number.toLocaleString("en")), shown, told);
  });
}

/**
 * A line of the log with its answer; of a refusal when it comes, and what to do.
 * @param {Logged} logged
 * @param {Refusals} refusals
 */
export function loggedTold([number, line, answer], refusals) {
  const name = refusalIn(answer);
  const known = name ? refusals[name] : undefined;
  return element("p", {}, `Line ${number.toLocaleString("en")} ${pair(line, answer)}`) + (known ? refusalTold(known) : "");
}

/**
 * What came of a line that was sent, or that it waits.
 * @param {Sent} sent
 * @param {string} waitsFor why it waits
 */
export function sentTold({ line, outcome }, waitsFor) {
  if (!outcome) return element("p", {}, `${element("code", {}, escaped(line))} waits for its answer${escaped(waitsFor)}.`);
  const taken = outcome.taken.map((it) => {
    const means = it.means.map(([name, text]) => [NAMES[name] ?? "", text]);
    return element("p", {}, pair(it.line, it.answer)) + (means.length ? partsTold(means) : "");
  });
  const problem = `${element("code", {}, escaped(line))} wasn't answered: ${escaped(outcome.problem ?? "")}.`;
  return taken.join("") + (outcome.problem === null ? "" : element("p", { class: "problem" }, problem));
}

/** @param {string} line @param {string} answer */
function pair(line, answer) {
  const kind = refusalIn(answer) ? { class: "refused" } : {};
  return `${element("code", {}, escaped(line))} ${element("span", { class: "arrow" }, "→")} ${element("samp", kind, escaped(answer))}`;
}
