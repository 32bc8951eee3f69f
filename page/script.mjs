/** A script as the picture reads it, as tools/mt_picture/script.py does: the lines that are answered, and the comments between them. */

import { wordsIn } from "./facts.mjs";

/**
 * The lines that are answered, as they are sent; the row of the text in which each stands, from 0 on; the comment in front of some, by the place of its
 * line; the title, empty if no comment gives one; and the words behind `mt run`.
 * @typedef {{lines: string[], rows: number[], notes: Map<number, string>, title: string, watchers: string[]}} Script
 */

/** The bytes that a script may have, and the keyspaces that a run may watch. */
export const MOST_BYTES = 1048576;
const MOST_WATCHERS = 31;
const KEYSPACE_NAME = /^[A-Za-z0-9_][A-Za-z0-9_-]{0,63}$/;
const RUN_WORDS = /\bmt run\b([^<\n]*)/;

/**
 * Whether a line is answered by nothing: an empty one, one of blanks, a comment.
 * @param {string} line
 */
export function isSilent(line) {
  const text = withoutReturn(line);
  return text.startsWith("#") || /^[ \t]*$/.test(text);
}

/**
 * A line without the carriage return of its end.
 * @param {string} line
 */
export function withoutReturn(line) {
  return line.endsWith("\r") ? line.slice(0, -1) : line;
}

/**
 * The words of a line as it is sent.
 * @param {string} line
 */
export function wordsOfLine(line) {
  return wordsIn(withoutReturn(line));
}

/**
 * Reads a script. The words behind `mt run` are those given, or else those of a comment `mt run ..`, or else the keyspaces that it makes.
 * @param {string} text
 * @param {string[]} keyspaces
 * @returns {Script}
 */
export function readScript(text, keyspaces) {
  const { lines, rows, comments } = linesAndComments(text);
  const first = comments[0] ?? [];
  const title = (first[0] ?? "").replace(/\.+$/, "");
  const told = comments.map((paragraphs, place) => (place === 0 ? paragraphs.slice(1) : paragraphs));
  const notes = new Map([...told.entries()].filter(([, it]) => it.length).map(([place, it]) => [place, it.join(" ")]));
  return { lines, rows, notes, title, watchers: keyspaces.length ? keyspaces : watchersOf(text, lines) };
}

/**
 * The lines that are answered with their rows, and the paragraphs of the comment right in front of each.
 * @param {string} text
 */
function linesAndComments(text) {
  const raw = text.split("\n");
  const last = raw.length - 1;
  if (raw[last].endsWith("\r")) raw[last] += "\r"; // no line feed follows, so this one belongs to the line
  /** @type {{lines: string[], rows: number[], comments: string[][]}} */
  const found = { lines: [], rows: [], comments: [] };
  /** @type {string[]} */
  let block = [];
  raw.forEach((line, row) => {
    if (isSilent(line)) {
      block.push(line.startsWith("#") ? line.replace(/^[# \t\r]+|[# \t\r]+$/g, "") : "");
      return;
    }
    found.lines.push(line);
    found.rows.push(row);
    found.comments.push(paragraphsOf(block));
    block = [];
  });
  return found;
}

/**
 * The paragraphs of a comment, without the line that says how the script is run.
 * @param {string[]} block
 */
function paragraphsOf(block) {
  const text = block.map((line) => (RUN_WORDS.test(line) ? "" : line)).join("\n");
  const parts = text.replace(/^\n+|\n+$/g, "").split(/\n{2,}/);
  return parts.filter((part) => part !== "").map((part) => part.split("\n").join(" "));
}

/** @param {string} text @param {string[]} lines */
function watchersOf(text, lines) {
  const told = text.split("\n").filter((line) => line.startsWith("#")).map((line) => RUN_WORDS.exec(line)).find((found) => found);
  if (told) return told[1].split(/\s+/).filter((word) => word !== "");
  const made = lines.map(wordsOfLine).filter((words) => words[0] === "keyspace" && [2, 3].includes(words.length) && KEYSPACE_NAME.test(words[1]));
  return [...new Set(made.map((words) => words[1]))].slice(0, MOST_WATCHERS);
}
