/**
 * The picture in a page. Where it is wider than its box its title, its legend and its refusals stand around it, and while its columns are scrolled what its
 * lanes are called stays in sight, and so do the words of its bars.
 */

import { numbersOf, refusalsOf } from "./facts.mjs";
import { legend, picture } from "./picture.mjs";
import { element, escaped } from "./svg.mjs";

/** @typedef {import("./facts.mjs").Facts} Facts */

const MOST_STRETCH = 2.2;
const NARROW_LABELS = 138;
const WORDS_MARGIN = 5;
const MARK_ROOM = 7;
const SVG_NAMES = "http://www.w3.org/2000/svg";

/**
 * What is shown of facts: the drawing, and as HTML what stands above and below it, which is nothing where the drawing has it.
 * @param {Facts} facts
 * @param {number} room how wide the box is
 * @param {boolean} isNarrow
 */
export function framed(facts, room, isNarrow) {
  const whole = isNarrow ? "" : picture(facts, { mostStretch: MOST_STRETCH });
  const width = Number(/ width="(\d+)"/.exec(whole)?.[1]);
  if (width <= room) return { head: "", drawing: whole, foot: "" };
  const look = isNarrow ? { width: room, labelRoom: NARROW_LABELS } : {};
  return { head: headTold(facts), drawing: picture(facts, { ...look, mostStretch: MOST_STRETCH, bare: true }), foot: refusedTold(facts) };
}

/** @param {Facts} facts */
function headTold(facts) {
  const { caption, marks } = legend(facts);
  const told = marks.map(({ svg, text }) => element("span", {}, svg, ` ${escaped(text)}`));
  return element("h2", {}, escaped(facts.title)) + element("p", {}, escaped(caption)) + element("p", { class: "legend" }, ...told);
}

/**
 * What each refusal means, with the lines that were refused so.
 * @param {Facts} facts
 */
function refusedTold(facts) {
  const names = [...new Set(facts.columns.flatMap((column) => refusalsOf(facts, column)))];
  const told = names.map((name) => {
    const lines = facts.columns.filter((column) => refusalsOf(facts, column).includes(name)).map(numbersOf);
    const { when, what_to_do } = facts.refusals[name] ?? { when: "docs/SCRIPT.md has it", what_to_do: "" };
    const meaning = `${when}. What to do: ${what_to_do}`;
    return element("dt", {}, `${escaped(name)} (line${lines.length > 1 ? "s" : ""} ${lines.join(", ")})`) + element("dd", {}, escaped(meaning));
  });
  return names.length ? element("h2", {}, "What was refused, and what to do") + element("dl", {}, ...told) : "";
}

/**
 * Keeps the titles, the labels and the words of a drawing that is wider than its box in sight, while its columns are scrolled.
 * @param {HTMLElement} box
 */
export function keepInSight(box) {
  const svg = box.querySelector("svg");
  const first = svg?.querySelector(".column");
  box.onscroll = null;
  if (!svg || !first || svg.width.baseVal.value <= box.clientWidth) return;
  const left = Number(first.getAttribute("x"));
  pinLabels(box, svg, left);
  const bars = [...svg.querySelectorAll(".bar")].map(barWords);
  const besideColumns = [...svg.querySelectorAll(".steps > text")].filter((it) => Number(it.getAttribute("x")) <= left + 6);
  const shift = () => {
    bars.forEach((bar) => shiftWords(bar, box.scrollLeft + left + WORDS_MARGIN));
    // what is said of the journal stands where the columns begin
    besideColumns.forEach((it) => it.setAttribute("visibility", box.scrollLeft > WORDS_MARGIN ? "hidden" : "visible"));
  };
  box.onscroll = shift;
  shift();
}

/**
 * The words of a bar with the ground below them, where they begin, how wide they are, where their room ends, and the marks of clients in the bar.
 * @param {Element} bar
 */
function barWords(bar) {
  const [frame, ...rest] = /** @type {SVGGraphicsElement[]} */ ([...bar.children]);
  const words = rest.filter((it) => it.tagName === "text" || it.getAttribute("fill") === "#ffffff");
  const boxes = words.map((it) => it.getBBox());
  const begin = Math.min(...boxes.map((it) => it.x));
  const { x, width } = frame.getBBox();
  const found = /** @type {SVGGraphicsElement[]} */ ([...(bar.parentElement?.querySelectorAll(":scope > circle, :scope > .refused") ?? [])]);
  const places = found.map((it) => it.getBBox().x + it.getBBox().width / 2).sort((one, other) => one - other);
  const marks = places.filter((mark) => x < mark && mark < x + width);
  return { words, begin, width: Math.max(...boxes.map((it) => it.x + it.width)) - begin, end: x + width - WORDS_MARGIN, marks };
}

/**
 * Shifts the words of a bar whose beginning isn't seen to where it is seen, clear of its marks; hides them where there is no room.
 * @param {ReturnType<typeof barWords>} bar
 * @param {number} left where what is seen begins
 */
function shiftWords({ words, begin, width, end, marks }, left) {
  let at = Math.max(left, begin);
  if (at > begin) {
    for (const mark of marks) if (at - MARK_ROOM < mark && mark < at + width + MARK_ROOM) at = mark + MARK_ROOM + 3;
  }
  const isSeen = at === begin || at + width <= end;
  for (const it of words) {
    it.setAttribute("transform", `translate(${at - begin} 0)`);
    it.setAttribute("visibility", isSeen ? "visible" : "hidden");
  }
}

/**
 * Puts the titles and the labels into a drawing of their own, which isn't scrolled.
 * @param {HTMLElement} box
 * @param {SVGSVGElement} svg
 * @param {number} left where the columns begin
 */
function pinLabels(box, svg, left) {
  const moves = [...svg.querySelectorAll("g.move")];
  const height = svg.height.baseVal.value;
  const pinned = drawnMark("svg", { class: "pinned", width: left, height, viewBox: `0 0 ${left} ${height}`, "aria-hidden": "true" });
  pinned.append(groundOf(moves, left), ...moves.flatMap(fixedParts));
  box.append(pinned);
}

/**
 * What of a move's panel isn't of any column: its headings and its labels.
 * @param {Element} move
 */
function fixedParts(move) {
  return [...move.querySelectorAll(':scope > text, .lane > text:first-child, .steps > text[text-anchor="end"]')];
}

/**
 * The ground below the labels of all panels.
 * @param {Element[]} moves
 * @param {number} left
 */
function groundOf(moves, left) {
  const boxes = moves.map((move) => /** @type {SVGGElement} */ (move).getBBox());
  const [top, bottom] = [boxes[0].y - 2, Math.max(...boxes.map((box) => box.y + box.height))];
  return drawnMark("rect", { x: 0, y: top, width: left - 5, height: bottom - top, fill: "#ffffff" });
}

/**
 * An element of SVG.
 * @param {string} name
 * @param {Record<string, string | number>} attributes
 */
function drawnMark(name, attributes) {
  const made = document.createElementNS(SVG_NAMES, name);
  for (const [key, value] of Object.entries(attributes)) made.setAttribute(key, String(value));
  return made;
}

/**
 * Scrolls a box so far that the last column is seen.
 * @param {HTMLElement} box
 */
export function showLastColumn(box) {
  const last = [...box.querySelectorAll(".column")].pop();
  if (!last) return;
  box.scrollLeft += last.getBoundingClientRect().right - box.getBoundingClientRect().right + 16;
  box.dispatchEvent(new Event("scroll"));
}
