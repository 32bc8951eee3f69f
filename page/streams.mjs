/** The streams of a move: where each stands, and how far it is behind. */

import { INK, RED, RULE, SMALL, SOFT, firstThatFits, rect, widthOf, words } from "./svg.mjs";
import { sideOf } from "./served.mjs";
import { streamTexts } from "./words.mjs";

/** @typedef {import("./lanes.mjs").Panel} Panel */
/** @typedef {import("./lanes.mjs").Lane} Lane */
/** @typedef {import("./lanes.mjs").Bar} Bar */

/**
 * The streams that ever are, those forward first.
 * @param {Panel} panel
 * @returns {Lane[]}
 */
export function streamLanes(panel) {
  const lanes = ["forward", "back"].flatMap((direction) => panel.move.shards.map((shard) => streamLane(panel, direction, shard)));
  return lanes.filter((lane) => lane.values.some((value) => value !== null));
}

/** @param {Panel} panel @param {string} direction @param {string} shard @returns {Lane} */
function streamLane({ move, states }, direction, shard) {
  const [from, into] = direction === "forward" ? [move.source, move.target] : [move.target, move.source];
  const values = states.map((state) => state?.streams.find((it) => it.direction === direction && it.shard === shard) ?? null);
  const range = shard === "-" ? "" : ` ${shard}`;
  const labels = [`${from} → ${into}${range}`, `→ ${into}${range}`, `${direction}${range}`];
  const height = move.shards.length > 3 ? 22 : 26;
  return { name: `stream ${direction} ${shard}`, labels, height, values, says: saidOfStream, draw: (bar) => streamBar(sideOf(move, into), bar), marks: [] };
}

/**
 * A stream in words from which each of its facts can be read.
 * @param {import("./facts.mjs").Stream} stream
 */
function saidOfStream({ state, position, copied, behind, rows }) {
  return `${state} at ${position}, copied ${copied}, ${behind} behind, ${rows} rows`;
}

/** @param {import("./svg.mjs").Side} side @param {Bar} bar */
function streamBar(side, { left, right, top, height, value }) {
  const room = right - left;
  const isBehind = value.behind > 0;
  const frame = rect(left + 0.5, top, room - 1.5, height, ...frameOf(side, value.state));
  const strip = isBehind ? rect(left + 0.5, top + height - 5, room - 1.5, 5, RED, { class: "behind" }) : "";
  const texts = streamTexts(value);
  const [last] = texts.slice(-1);
  const text = firstThatFits(texts, room - 9, SMALL, isBehind) ?? firstThatFits([last], room - 2, SMALL - 1) ?? "";
  const looks = { "font-size": text === last ? SMALL - 1 : SMALL, "font-weight": isBehind ? 600 : null };
  const colour = isBehind ? RED : value.state === "running" ? INK : SOFT;
  const x = left + Math.min(5, Math.max(room - widthOf(text, SMALL), 3) / 2);
  return frame + strip + words(x, top + height / 2 + (isBehind ? 1.5 : 4), text, { fill: colour, ...looks });
}

/**
 * How the frame of a stream in a state looks.
 * @param {import("./svg.mjs").Side} side
 * @param {string} state
 * @returns {[string, Record<string, string | number>]}
 */
function frameOf(side, state) {
  if (state === "running") return [side.pale, { rx: 3, stroke: side.strong }];
  return state === "stopped" ? ["#eceff2", { rx: 3, stroke: SOFT, "stroke-dasharray": "3 2" }] : ["#f3f4f6", { rx: 3, stroke: RULE }];
}
