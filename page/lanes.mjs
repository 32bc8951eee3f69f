/** The lanes of a move over the columns: what all have in common, its phase, and the way back. */

import { stretches } from "./facts.mjs";
import { SMALL, cross, cut, dot, element, firstThatFits, line, rect, words } from "./svg.mjs";
import { phaseOf, wayBackOf } from "./words.mjs";

/**
 * A move with the places of the columns: column `i` reaches from `xs[i]` to `xs[i + 1]`; `labels` is where the names of lanes end; `width` is what is seen at
 * once.
 * @typedef {{facts: import("./facts.mjs").Facts, move: import("./facts.mjs").Move, index: number, states: (import("./facts.mjs").State | null)[],
 *            xs: number[], labels: number, width: number}} Panel
 *
 * A mark of clients' lines in a column.
 * @typedef {{x: number, write: boolean, refused: boolean}} Mark
 *
 * Where a value stands in a lane, with the marks of the lane there.
 * @typedef {{left: number, right: number, top: number, height: number, value: any, marks: Mark[]}} Bar
 *
 * A lane: its name, which tests read; what stands before it, from long to short; a value for each column, null where it has none; and how one is put into
 * words for tests, and drawn.
 * @typedef {{name: string, labels: string[], height: number, values: any[], says: (value: any) => string, draw: (bar: Bar) => string, marks: Mark[]}} Lane
 */

/** The room before a lane for its label, and the size of its words. */
export const LABEL_ROOM = 216;
export const LANE_WORDS = 12;

/** @type {Record<string, string>} */
const PHASES = { none: "#eceff2", rest: "#e3edf8", way: "#fff3bf", switched: "#fbe6c9" };
const MARK = 4;

/**
 * How wide the label of a lane may be.
 * @param {Panel} panel
 */
export function labelRoomOf({ labels }) {
  return labels - 8;
}

/**
 * A lane with its label and its bars, below a place.
 * @param {Panel} panel
 * @param {Lane} lane
 * @param {number} top
 */
export function laneDrawn(panel, lane, top) {
  const middle = top + lane.height / 2;
  const bars = stretches(lane.values).filter(({ value }) => value !== null);
  const drawn = bars.map(({ from, to, value }) => {
    const [left, right] = [panel.xs[from], panel.xs[to + 1]];
    const marks = lane.marks.filter((mark) => left < mark.x && mark.x < right);
    const said = { class: "bar", "data-from": from, "data-to": to, "data-says": lane.says(value) };
    return element("g", said, lane.draw({ left, right, top, height: lane.height, value, marks }));
  });
  const marks = lane.marks.map((mark) => (mark.refused ? cross(mark.x, middle, MARK) : dot(mark.x, middle, MARK, mark.write)));
  const room = labelRoomOf(panel);
  const label = firstThatFits(lane.labels, room, LANE_WORDS) ?? cut(lane.labels[lane.labels.length - 1], Math.floor(room / 7.2) - 1);
  const name = words(panel.labels, middle + 4, label, { "text-anchor": "end" });
  return element("g", { class: "lane", "data-lane": `${panel.index} ${lane.name}` }, name, ...drawn, ...marks);
}

/**
 * Where words of a width may begin in a bar, so that no mark of it is covered; null if there is no room.
 * @param {Bar} bar
 * @param {number} width
 */
export function clearOfMarks({ left, right, marks }, width) {
  let at = left + 8;
  for (const { x } of [...marks].sort((one, other) => one.x - other.x)) {
    if (at - 7 < x && x < at + width + 7) at = x + 10;
  }
  return at + width + 4 <= right ? at : null;
}

/**
 * The phase of the move.
 * @param {Panel} panel
 * @returns {Lane}
 */
export function phaseLane(panel) {
  const values = panel.states.map((state) => phaseOf(panel.facts, panel.move, state));
  return { name: "phase", labels: ["phase"], height: 22, values, says: (value) => value.texts[0], draw: phaseBar, marks: [] };
}

/** @param {Bar} bar */
function phaseBar({ left, right, top, height, value }) {
  const large = firstThatFits(value.texts, right - left - 6, LANE_WORDS, true);
  const text = large ?? firstThatFits(value.texts, right - left - 3, SMALL - 0.5) ?? "";
  const looks = { "font-size": large ? LANE_WORDS : SMALL - 0.5, "font-weight": large ? 600 : null };
  const x = Math.min((left + right) / 2, left + 300); // seen in a long picture too
  return rect(left, top, right - left - 1, height, PHASES[value.kind], { rx: 3 }) + words(x, top + height / 2 + 4, text, { "text-anchor": "middle", ...looks });
}

/**
 * The way back from here.
 * @param {Panel} panel
 * @returns {Lane}
 */
export function wayBackLane(panel) {
  const values = panel.states.map((state) => state && wayBackOf(state));
  return { name: "back", labels: [""], height: 22, values, says: (value) => value.texts[0], draw: wayBackBar, marks: [] };
}

/** @param {Bar} bar */
function wayBackBar({ left, right, top, height, value }) {
  const text = firstThatFits(value.texts, right - left - 10, 11, true) ?? "";
  const ground = rect(left, top, right - left - 1, height, value.colour, { "fill-opacity": 0.13, rx: 2 });
  const foot = line(left, top + height - 1.5, right - 1, top + height - 1.5, value.colour, 3);
  return ground + foot + words(left + 6, top + 14, text, { "font-size": 11, fill: value.colour, "font-weight": 700 });
}
