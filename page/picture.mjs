/** The picture of a script's moves: a pure function from the facts to SVG. It runs in a browser and in node alike. */

import { lineCount, linesOf, numberAt, numbersOf, refusalsOf } from "./facts.mjs";
import { INK, MARGIN, RED, RULE, SOFT, cross, cut, dot, element, escaped, line, rect, short, stacked, widthOf, words, wrapped } from "./svg.mjs";
import { descriptionOf, kindOf, labelOf, refusalWords } from "./words.mjs";
import { REFUSED_FILL, REFUSED_PATTERN } from "./served.mjs";
import { LABEL_ROOM } from "./lanes.mjs";
import { panelDrawn } from "./panel.mjs";

/** @typedef {import("./facts.mjs").Facts} Facts */
/** @typedef {import("./facts.mjs").Column} Column */
/** @typedef {import("./svg.mjs").Part} Part */

const WIDTH = 1230; // so that a page of 1,280 has room for it
const SLANT = 58;
const LABEL_SIZE = 11;
const NUMBER_SIZE = 9.5;
// how wide a column is by its kind: at least, and if there is room
const WIDTHS = { several: [60, 66], quiet: [15, 19], whole: [46, 54], turn: [24, 34], one: [20, 30] };
const STYLE = 'text{font-family:system-ui,"Segoe UI","DejaVu Sans",sans-serif}.column{fill:transparent}.column:hover{fill:#00000012}';
const CAPTION = "Time runs from left to right. Each column is a line of the script, named at its foot, and shows what stands behind that line.";
const CAPTION_OF_LOG = "Time runs from left to right. Each column is a line of the log, or several that came at once, and shows what stands behind the last.";

/**
 * How a picture is to look: how wide it is if its columns have room there; the room before them for labels; how many times as wide as liked a column is at
 * most, so that one that grows isn't all stretched; and whether it has its columns alone, as its title, its legend and its refusals stand elsewhere.
 * @typedef {{width?: number, labelRoom?: number, mostStretch?: number, bare?: boolean}} Look
 *
 * The same, with the place at which the columns begin.
 * @typedef {{width: number, left: number, mostStretch: number}} Frame
 */

/**
 * The facts of a script as a picture.
 * @param {Facts} facts
 * @param {Look} [look]
 * @returns {string} an SVG element
 */
export function picture(facts, { width: liked = WIDTH, labelRoom = LABEL_ROOM, mostStretch = Infinity, bare = false } = {}) {
  const frame = { width: liked, left: labelRoom + 20, mostStretch };
  const xs = columnEdges(facts, frame);
  const width = Math.max(liked, Math.ceil(xs[xs.length - 1] + MARGIN));
  const head = bare ? { svg: "", bottom: 4 } : headDrawn(facts);
  const panels = stacked(head.bottom, panelsOf(facts, xs, frame));
  const foot = footDrawn(facts, xs, panels.bottom, bare);
  const height = Math.ceil(foot.bottom);
  const named = { role: "img", "aria-labelledby": "picture-title picture-description" };
  return element(
    "svg",
    { xmlns: "http://www.w3.org/2000/svg", viewBox: `0 0 ${width} ${height}`, width, height, ...named },
    element("title", { id: "picture-title" }, escaped(facts.title)),
    element("desc", { id: "picture-description" }, escaped(descriptionOf(facts))),
    element("style", {}, escaped(STYLE)),
    element("defs", {}, REFUSED_PATTERN),
    rect(0, 0, width, height, "#ffffff"),
    ...xs.map((x) => line(x, head.bottom + 26, x, panels.bottom, "#eef1f4")),
    head.svg,
    panels.svg,
    foot.svg,
    ...pointedAt(facts, xs, head.bottom + 26, panels.bottom + 34),
  );
}

/**
 * Where the columns begin, and the last one ends. They fill the width, and go past it only if all are as narrow as can be.
 * @param {Facts} facts
 * @param {Frame} frame
 */
function columnEdges(facts, { width, left, mostStretch }) {
  const kinds = facts.columns.map((column) => widthsOf(facts, column));
  const room = width - left - MARGIN;
  const least = kinds.reduce((sum, [narrow]) => sum + narrow, 0);
  const liked = kinds.reduce((sum, [, wide]) => sum + wide, 0);
  const share = Math.min(Math.max((room - least) / Math.max(liked - least, 1), 0), 1);
  const stretch = liked < room ? Math.min(room / liked, mostStretch) : 1;
  const edges = [left];
  kinds.forEach(([narrow, wide], place) => edges.push(edges[place] + (narrow + (wide - narrow) * share) * stretch));
  return edges;
}

/**
 * How wide a column is at least, so that its numbers have room, and if there is more.
 * @param {Facts} facts
 * @param {Column} column
 */
function widthsOf(facts, column) {
  const [narrow, wide] = WIDTHS[kindOf(facts, column)];
  const least = Math.max(narrow, widthOf(numbersOf(column), NUMBER_SIZE, true) + 3);
  return [least, Math.max(least, wide)];
}

/** @param {Facts} facts @param {number[]} xs @param {Frame} frame @returns {Part[]} */
function panelsOf(facts, xs, { width, left }) {
  return facts.moves.map((move, index) => {
    const states = facts.columns.map((column) => column.moves[index]);
    return (top) => panelDrawn({ facts, move, index, states, xs, labels: left - 12, width }, top);
  });
}

/**
 * What the marks mean: each, drawn at a place, and its words.
 * @type {[(x: number, y: number) => string, string][]}
 */
const LEGEND = [
  [(x, y) => rect(x - 7, y - 7, 14, 14, REFUSED_FILL, { rx: 3, stroke: RED }), "clients are refused"],
  [(x, y) => dot(x, y, 4, true), "a client's write that was answered"],
  [(x, y) => dot(x, y, 4, false), "a client's read that was answered"],
  [(x, y) => cross(x, y, 5), "a line that was refused"],
  [(x, y) => rect(x - 7, y - 2.5, 14, 5, RED), "a stream is behind; −2: by two entries"],
];

/**
 * How a picture of facts is read.
 * @param {Facts} facts
 */
function captionOf({ numbers }) {
  return numbers ? CAPTION_OF_LOG : CAPTION;
}

/**
 * How to read a picture of facts, and each of its marks as an SVG element, with what it means.
 * @param {Facts} facts
 */
export function legend(facts) {
  const box = { xmlns: "http://www.w3.org/2000/svg", viewBox: "0 0 18 18", width: 18, height: 18, "aria-hidden": "true" };
  return { caption: captionOf(facts), marks: LEGEND.map(([drawn, text]) => ({ svg: element("svg", box, drawn(9, 9)), text })) };
}

/**
 * The title, how to read the picture, and what its marks mean.
 * @param {Facts} facts
 */
function headDrawn(facts) {
  const title = words(MARGIN, 30, cut(facts.title, 100), { "font-size": 18, "font-weight": 700 });
  let x = MARGIN + 8;
  const marks = LEGEND.map(([drawn, text]) => {
    const mark = drawn(x, 70) + words(x + 14, 74, text, { fill: SOFT });
    x += widthOf(text) + 44;
    return mark;
  });
  return { svg: title + words(MARGIN, 50, captionOf(facts), { fill: SOFT }) + marks.join(""), bottom: 84 };
}

/**
 * Below the panels: the crosses of refused lines, the numbers and the words of all columns, and what the refusals mean.
 * @param {Facts} facts
 * @param {number[]} xs
 * @param {number} top
 * @param {boolean} bare
 */
function footDrawn(facts, xs, top, bare) {
  const labels = facts.columns.map((column) => labelOf(facts, column));
  const columns = facts.columns.map((column, place) => columnFoot(facts, column, labels[place], (xs[place] + xs[place + 1]) / 2, top));
  const longest = Math.max(...labels.map((label) => widthOf(label, LABEL_SIZE)));
  const below = top + 44 + longest * Math.sin((SLANT * Math.PI) / 180);
  const refused = bare ? { svg: "", bottom: below } : refusalsDrawn(facts, xs[xs.length - 1], below + 12);
  return { svg: element("g", { class: "foot" }, ...columns) + refused.svg, bottom: refused.bottom };
}

/** @param {Facts} facts @param {Column} column @param {string} label @param {number} middle @param {number} top */
function columnFoot(facts, column, label, middle, top) {
  const isRefused = refusalsOf(facts, column).length > 0;
  const colour = isRefused ? RED : kindOf(facts, column) === "quiet" ? SOFT : INK;
  const mark = isRefused ? cross(middle, top + 8, 4) : "";
  const number = words(middle, top + 27, numbersOf(column), { "font-size": NUMBER_SIZE, fill: colour, "text-anchor": "middle", "font-weight": 600 });
  const [x, y] = [middle + 3, top + 42];
  const slant = { "text-anchor": "end", transform: `rotate(-${SLANT} ${short(x)} ${short(y)})` };
  return mark + number + words(x, y, label, { "font-size": LABEL_SIZE, fill: colour, "font-weight": isRefused ? 600 : null, ...slant });
}

/**
 * What each refusal means, with the lines that were refused so.
 * @param {Facts} facts
 * @param {number} right
 * @param {number} top
 */
function refusalsDrawn(facts, right, top) {
  const names = [...new Set(facts.columns.flatMap((column) => refusalsOf(facts, column)))];
  if (!names.length) return { svg: "", bottom: top };
  const heading = words(MARGIN, top + 12, "WHAT WAS REFUSED, AND WHAT TO DO", { fill: SOFT, "font-weight": 700 });
  const rule = line(MARGIN, top + 18, right, top + 18, RULE);
  /** @type {Part[]} */
  const parts = names.map((name) => (y) => refusalDrawn(facts, name, y));
  const rows = stacked(top + 34, parts);
  return { svg: heading + rule + rows.svg, bottom: rows.bottom + 4 };
}

/** @param {Facts} facts @param {string} name @param {number} top */
function refusalDrawn(facts, name, top) {
  const columns = facts.columns.filter((column) => refusalsOf(facts, column).includes(name));
  const lines = wrapped(refusalWords(facts, name), 160, 3);
  const said = lines.map((text, place) => words(MARGIN + 250, top + place * 15, text, { "font-size": LABEL_SIZE }));
  const where = cut(`line${columns.length > 1 ? "s" : ""} ${columns.map(numbersOf).join(", ")}`, 17);
  const named = { "font-size": LABEL_SIZE, fill: RED, "font-weight": 600 };
  const title = words(MARGIN, top, where, { "font-size": LABEL_SIZE, fill: SOFT }) + words(MARGIN + 104, top, name, named);
  return { svg: title + said.join(""), bottom: top + lines.length * 15 + 3 };
}

/**
 * Over each column what a pointer is told there: its lines with their answers.
 * @param {Facts} facts
 * @param {number[]} xs
 * @param {number} top
 * @param {number} bottom
 */
function pointedAt(facts, xs, top, bottom) {
  return facts.columns.map((column, place) => {
    const lines = linesOf(facts, column).slice(0, 12);
    const from = facts.lines.indexOf(lines[0]);
    const told = lines.map(({ text, answer }, at) => `${numberAt(facts, from + at)}  ${cut(text, 120)}\n      ${cut(answer, 160)}`);
    const more = lineCount(column) > lines.length ? ["..."] : [];
    const refused = refusalsOf(facts, column).map((name) => `${name}: ${refusalWords(facts, name)}`);
    const title = element("title", {}, escaped([...told, ...more, ...refused].join("\n")));
    const box = { x: xs[place], y: top, width: xs[place + 1] - xs[place], height: bottom - top };
    return element("rect", { class: "column", ...box }, title);
  });
}
