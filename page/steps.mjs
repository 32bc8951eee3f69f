/** The steps of switches and reversals: how many stand done behind each column, and the journal, behind which none is undone. */

import { counted, linesOf, refusalIn, wordsIn } from "./facts.mjs";
import { labelRoomOf } from "./lanes.mjs";
import { GREEN, HALO, INK, RED, RULE, SMALL, SOFT, TEAL, cross, cut, element, firstThatFits, line, rect, short, words } from "./svg.mjs";

const RUNG = 15;
const STEPS = 12;

/** @typedef {import("./lanes.mjs").Panel} Panel */
/** @typedef {import("./facts.mjs").Way} Way */
/** @typedef {(level: number) => number} YOf */
/** @typedef {{left: number, right: number, middle: number, yOf: YOf}} Place */

/**
 * Whether any way is opened on the move.
 * @param {Panel} panel
 */
export function hasSteps(panel) {
  return panel.states.some((state) => state && (state.way || state.drive));
}

/** How high the steps are drawn. */
export const STEPS_HEIGHT = STEPS * RUNG + 12;

/**
 * The steps of a move, below a place.
 * @param {Panel} panel
 * @param {number} top
 */
export function stepsDrawn(panel, top) {
  /** @type {YOf} */
  const yOf = (level) => top + 8 + (STEPS - level) * RUNG;
  return element("g", { class: "steps" }, ground(panel, yOf), ...climbs(panel, yOf), journalWords(panel, yOf));
}

/**
 * The twelve steps by their names, and the journal between them.
 * @param {Panel} panel
 * @param {YOf} yOf
 */
function ground(panel, yOf) {
  const { move, xs, labels } = panel;
  const [left, right] = [xs[0], xs[xs.length - 1]];
  const behind = rect(left, yOf(STEPS) - 4, right - left, yOf(move.journal) - yOf(STEPS) + 4, "#fdf3f2");
  const rungs = move.steps.map((name, number) => {
    const isJournal = number === move.journal;
    const looks = { "font-size": SMALL, fill: isJournal ? RED : SOFT, "text-anchor": "end", "font-weight": isJournal ? 700 : null };
    const y = yOf(number + 1);
    const label = firstThatFits([name, withoutSide(name)], labelRoomOf(panel), SMALL) ?? cut(withoutSide(name), 21);
    return words(labels, y + RUNG / 2 + 4, isJournal ? label.toUpperCase() : label, looks) + line(left, y, right, y, "#eceff2");
  });
  const journal = line(left, yOf(move.journal), right, yOf(move.journal), RED, 1.6, { "stroke-dasharray": "6 4" });
  return behind + rungs.join("") + line(left, yOf(0), right, yOf(0), RULE) + journal;
}

/**
 * A step's name without the side that it is of.
 * @param {string} name
 */
function withoutSide(name) {
  return name.replace(/:? (?:rules lead to|at|of) the .*/, "");
}

/** @param {Panel} panel @param {YOf} yOf */
function journalWords({ move, xs }, yOf) {
  const more = { "font-size": SMALL, "font-weight": 600, ...HALO };
  const after = words(xs[0] + 6, yOf(move.journal) - 5, "after the journal: only forward", { ...more, fill: RED });
  return after + words(xs[0] + 6, yOf(move.journal) + 13, "before it: can be undone", { ...more, fill: TEAL });
}

/**
 * How high a way stands with so many steps done; of a step that is done for each shard each one counts a part.
 * @param {number[]} steps
 * @param {number} done
 */
export function levelOf(steps, done) {
  if (done === 0) return steps[0];
  const step = steps[done - 1];
  const first = steps.indexOf(step);
  return step + (done - first) / steps.filter((it) => it === step).length;
}

/**
 * The marks of all columns, each drawn from where the one before it stands.
 * @param {Panel} panel
 * @param {YOf} yOf
 * @returns {string[]}
 */
function climbs(panel, yOf) {
  /** @type {number | null} */
  let level = null;
  return panel.states.map((state, column) => {
    const before = level;
    const [left, right] = [panel.xs[column], panel.xs[column + 1]];
    const place = { left, right, middle: (left + right) / 2, yOf };
    const way = state?.way ?? null;
    level = way && levelOf(way.steps, way.done);
    if (way) return openColumn(panel, column, way, before, place);
    if (before !== null) return closedColumn(panel, column, before, place);
    return state?.drive ? driveColumn(state.drive, place) : "";
  });
}

/**
 * A way that is open.
 * @param {Panel} panel
 * @param {number} column
 * @param {Way} way
 * @param {number | null} before
 * @param {Place} place
 */
function openColumn(panel, column, way, before, place) {
  const { left, right, middle, yOf } = place;
  const level = levelOf(way.steps, way.done);
  const from = before ?? levelOf(way.steps, 0);
  const climb = path([[left, yOf(from)], [left, yOf(level)], [right, yOf(level)]], way.undoing ? TEAL : INK);
  const start = before === null ? element("circle", { cx: left, cy: yOf(from), r: 3.5, fill: INK }) : "";
  const shard = level > from ? shardWords(panel.move, way, place, yOf(level)) : "";
  const refused = isRefusedStep(panel, column) ? cross(middle, yOf(level), 5) : "";
  return climb + start + shard + refused;
}

/**
 * Which shard the last step was done for, if it is one of several: its range, or its number where that has no room.
 * @param {import("./facts.mjs").Move} move
 * @param {Way} way
 * @param {Place} place
 * @param {number} y
 */
function shardWords(move, way, { left, right }, y) {
  const step = way.steps[way.done - 1];
  const alike = way.steps.filter((it) => it === step).length;
  if (alike < 2) return "";
  const number = way.done - 1 - way.steps.indexOf(step);
  const text = firstThatFits([move.shards[number], `${number + 1}/${alike}`], right - left - 3, 9) ?? "";
  return words(left + 4, y - 3, text, { "font-size": 9, ...HALO });
}

/**
 * A way that its line closed: with its last step, or with its last undo.
 * @param {Panel} panel
 * @param {number} column
 * @param {number} before
 * @param {Place} place
 */
function closedColumn(panel, column, before, { left, middle, yOf }) {
  const steps = panel.states[column - 1]?.way?.steps ?? [];
  const words = linesOf(panel.facts, panel.facts.columns[column]).map(({ text }) => wordsIn(text));
  const isUndone = words.filter(([, workflow]) => workflow === panel.move.workflow).pop()?.[0] === "undo";
  const end = levelOf(steps, isUndone ? 0 : steps.length);
  const climb = path([[left, yOf(before)], [left, yOf(end)], [middle, yOf(end)]], isUndone ? TEAL : INK);
  return climb + element("circle", { cx: middle, cy: yOf(end), r: 4.5, fill: isUndone ? TEAL : GREEN, stroke: "#ffffff", "stroke-width": 1.2 });
}

/**
 * A switch or a reversal in one line: an arrow over its steps, or up to where it gave itself up and back.
 * @param {import("./facts.mjs").Drive} drive
 * @param {Place} place
 */
function driveColumn({ steps, done, direction, undone }, { middle, yOf }) {
  const [foot, head] = [yOf(levelOf(steps, 0)), yOf(levelOf(steps, done))];
  const back = direction === "back" ? " back" : "";
  if (undone) {
    const lines = line(middle - 3, foot, middle - 3, head, INK, 2.4) + line(middle + 3, foot, middle + 3, head, TEAL, 2.4);
    return lines + cross(middle, head - 4, 5) + upright(`${counted(done, "step")}${back}, then undone by itself`, middle - 9, foot - 3, TEAL);
  }
  const arrow = `M${short(middle - 6)} ${short(head + 10)}L${short(middle)} ${short(head)}L${short(middle + 6)} ${short(head + 10)}Z`;
  const shaft = line(middle, foot, middle, Math.min(head + 8, foot), INK, 4) + element("path", { d: arrow, fill: INK });
  if (steps.length > 1) return shaft + upright(`all ${steps.length} steps${back}, in one line`, middle - 7, foot - 3, INK);
  return shaft + words(middle, head - 4, back ? "1 back" : "1 step", { "font-size": SMALL, "text-anchor": "middle", ...HALO });
}

/**
 * Words that run upwards.
 * @param {string} text
 * @param {number} x
 * @param {number} y
 * @param {string} colour
 */
function upright(text, x, y, colour) {
  return words(x, y, text, { "font-size": SMALL, fill: colour, transform: `rotate(-90 ${short(x)} ${short(y)})`, ...HALO });
}

/**
 * Whether a column is a step or an undo of the move that was refused, or a whole switch that stopped.
 * @param {Panel} panel
 * @param {number} column
 */
function isRefusedStep({ facts, move }, column) {
  return linesOf(facts, facts.columns[column]).some(({ text, answer }) => {
    const [verb, workflow] = wordsIn(text);
    return ["step", "undo", "switch", "reverse"].includes(verb) && workflow === move.workflow && refusalIn(answer) !== null;
  });
}

/** @param {number[][]} points @param {string} colour */
function path(points, colour) {
  return element("polyline", { points: points.map(([x, y]) => `${short(x)},${short(y)}`).join(" "), fill: "none", stroke: colour, "stroke-width": 2.4 });
}
