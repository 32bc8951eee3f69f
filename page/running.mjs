/** Runs of the controller for a page: of as many lines as are asked for, and in turns, so that the page stays at work meanwhile. */

import { runBy } from "./mt.mjs";

/** @typedef {import("./script.mjs").Script} Script */
/** @typedef {import("./mt.mjs").Module} Module */

/** The lines of a script in this page, silent ones counted; `mt run` takes more. */
export const MOST_ROWS = 2000;
const LONGEST_TURN = 12; // milliseconds, behind which the page has its turn

/** What was asked is no longer wanted. */
export class Superseded extends Error {}

/**
 * The first lines of a script.
 * @param {Script} script
 * @param {number} count
 * @returns {Script}
 */
export function beginningOf(script, count) {
  return { ...script, lines: script.lines.slice(0, count), rows: script.rows.slice(0, count) };
}

/**
 * The answers to lines of which none is silent.
 * @param {Module} module
 * @param {string[]} lines
 * @param {string[]} watchers
 */
export function answersTo(module, lines, watchers) {
  const answers = runBy(module, lines.map((line) => `${line}\n`).join(""), watchers).split("\n").slice(0, -1);
  if (answers.length !== lines.length) throw new Error(`${answers.length} of ${lines.length} lines were answered`);
  return answers;
}

/**
 * What gathers the facts of a picture asks: it gives the page its turn now and then, and ends by `Superseded` where the answer is no longer wanted.
 * @param {Module} module
 * @param {string[]} watchers
 * @param {() => boolean} isWanted
 * @returns {import("./asking.mjs").Ask}
 */
export function askingInTurns(module, watchers, isWanted) {
  let since = performance.now();
  return async (before, more) => {
    if (performance.now() - since > LONGEST_TURN) {
      await new Promise((resolve) => setTimeout(resolve));
      since = performance.now();
    }
    if (!isWanted()) throw new Superseded();
    return answersTo(module, [...before, ...more], watchers).slice(before.length);
  };
}
