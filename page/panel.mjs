/** A move over the columns: its title, and its lanes one below the other. */

import { laneDrawn, phaseLane, wayBackLane } from "./lanes.mjs";
import { nameLanes, namesServed, primariesServed, primaryLanes, tablesAlike } from "./served.mjs";
import { STEPS_HEIGHT, hasSteps, stepsDrawn } from "./steps.mjs";
import { streamLanes } from "./streams.mjs";
import { INK, MARGIN, RULE, SIDES, SOFT, cut, element, escaped, firstThatFits, line, stacked, widthOf, words } from "./svg.mjs";

/** @typedef {import("./lanes.mjs").Panel} Panel */
/** @typedef {import("./lanes.mjs").Lane} Lane */
/** @typedef {import("./svg.mjs").Part} Part */

const GAP = 4;
const BESIDE_TITLE = 180; // which a title in one line leaves free

/**
 * A panel below a place.
 * @param {Panel} panel
 * @param {number} top
 */
export function panelDrawn(panel, top) {
  const streams = streamLanes(panel).map((lane) => laned(panel, lane));
  /** @type {Part} */
  const steps = (y) => ({ svg: stepsDrawn(panel, y), bottom: y + STEPS_HEIGHT });
  const parts = [
    titled(panel),
    laned(panel, phaseLane(panel)),
    ...section(panel, ["WHO ANSWERS A QUERY BY THE TABLE'S NAME", "WHO ANSWERS BY THE TABLE'S NAME"], groupedLanes(panel, namesServed, nameLanes)),
    ...section(panel, ["WHICH PRIMARY TAKES CLIENTS (ASKED DIRECTLY, PAST THE RULES)", "WHICH PRIMARY TAKES CLIENTS"], groupedLanes(panel, primariesServed, primaryLanes)),
    ...section(panel, ["STREAMS: THE POSITION EACH STANDS AT IN THE LOG IT READS, AND HOW FAR IT IS BEHIND", "STREAMS: WHERE EACH STANDS"], streams),
    ...section(panel, ["STEPS OF A SWITCH THAT STAND DONE"], hasSteps(panel) ? [steps] : []),
    ...section(panel, ["THE WAY BACK FROM HERE, AS IT WAS TRIED", "THE WAY BACK, AS IT WAS TRIED"], [laned(panel, wayBackLane(panel))]),
    spaced(16),
  ];
  const { svg, bottom } = stacked(top, parts);
  return { svg: element("g", { class: "move", "data-move": panel.index }, svg), bottom };
}

/**
 * What moves, from where to where; in two lines where one is too short, and in three in a narrow picture.
 * @param {Panel} panel
 * @returns {Part}
 */
function titled({ move, width }) {
  const [workflow, tables] = [cut(move.workflow, 40), ` moves ${cut(move.tables.join(", "), 80)}`];
  const target = `${cut(move.target, 50)} (target${move.shards.length > 1 ? `, ${move.shards.length} shards` : ""})`;
  const sides = [sideNamed(`${cut(move.source, 50)} (source)`, SIDES.source.strong), sideNamed(target, SIDES.target.strong)];
  const title = [element("tspan", { "font-size": 17, "font-weight": 700 }, escaped(workflow)), escaped(tables)];
  const looks = { x: MARGIN, "font-size": 13, fill: INK };
  const isLong = widthOf(workflow, 17, true) + widthOf(tables + move.source + target, 13, true) > width - BESIDE_TITLE;
  const isNarrow = widthOf(move.source + target, 13, true) + BESIDE_TITLE > width;
  const rows = isNarrow ? [title, ...sides.map((side) => [side])] : isLong ? [title, sides] : [[...title, ...sides]];
  const drawn = (/** @type {number} */ top) => rows.map((row, place) => element("text", { ...looks, y: top + 20 + place * 22 }, ...row));
  return (top) => ({ svg: drawn(top).join(""), bottom: top + 12 + rows.length * 22 });
}

/**
 * A side behind a mark in its colour.
 * @param {string} text
 * @param {string} colour
 */
function sideNamed(text, colour) {
  return element("tspan", { fill: colour, dx: 18, "font-size": 17 }, "■") + element("tspan", { dx: 5, "font-weight": 600 }, escaped(text));
}

/**
 * A heading, from long to short, with what stands below it; nothing if nothing does.
 * @param {Panel} panel
 * @param {string[]} texts
 * @param {Part[]} parts
 * @returns {Part[]}
 */
function section(panel, texts, parts) {
  const text = firstThatFits(texts, panel.width - 2 * MARGIN, 12, true) ?? texts[texts.length - 1];
  /** @type {Part} */
  const heading = (top) => ({
    svg: words(MARGIN, top + 12, text, { fill: SOFT, "font-weight": 700 }) + line(MARGIN, top + 18, panel.xs[panel.xs.length - 1], top + 18, RULE),
    bottom: top + 24,
  });
  return parts.length ? [spaced(8), heading, ...parts] : [];
}

/**
 * The lanes of tables that are alike, below their names where there are several kinds.
 * @param {Panel} panel
 * @param {(state: import("./facts.mjs").State, table: string) => unknown} said
 * @param {(panel: Panel, tables: string[]) => Lane[]} lanesOf
 */
function groupedLanes(panel, said, lanesOf) {
  const groups = tablesAlike(panel, said);
  return groups.flatMap((tables) => {
    /** @type {Part} */
    const name = (top) => ({ svg: words(MARGIN, top + 12, cut(tables.join(", "), 150), { "font-weight": 700 }), bottom: top + 18 });
    const lanes = lanesOf(panel, tables).map((lane) => laned(panel, lane));
    return groups.length > 1 ? [name, ...lanes] : lanes;
  });
}

/** @param {Panel} panel @param {Lane} lane @returns {Part} */
function laned(panel, lane) {
  return (top) => ({ svg: laneDrawn(panel, lane, top), bottom: top + lane.height + GAP });
}

/** @param {number} height @returns {Part} */
function spaced(height) {
  return (top) => ({ svg: "", bottom: top + height });
}
