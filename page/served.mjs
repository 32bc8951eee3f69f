/** Who serves a move's tables: by their names, and at each primary. */

import { TYPES, rangeOf, serverOf, stretches } from "./facts.mjs";
import { LANE_WORDS, clearOfMarks, labelRoomOf } from "./lanes.mjs";
import { RED, SIDES, cut, element, rect, widthOf, words } from "./svg.mjs";

/** @typedef {import("./facts.mjs").Move} Move */
/** @typedef {import("./facts.mjs").State} State */
/** @typedef {import("./facts.mjs").Query} Query */
/** @typedef {import("./lanes.mjs").Panel} Panel */
/** @typedef {import("./lanes.mjs").Lane} Lane */
/** @typedef {import("./lanes.mjs").Bar} Bar */
/** @typedef {(string | null)[]} Values */

/** The pattern of what is refused, and how it is referred to. */
export const REFUSED_FILL = "url(#refused)";
export const REFUSED_PATTERN = element(
  "pattern",
  { id: "refused", width: 7, height: 7, patternUnits: "userSpaceOnUse", patternTransform: "rotate(45)" },
  rect(0, 0, 7, 7, "#fdeceb"),
  rect(0, 0, 2, 7, "#e39c95"),
);

/**
 * Which side of a move a keyspace is: a name may lead to a third one behind its end.
 * @param {Move} move
 * @param {string} keyspace
 */
export function sideOf(move, keyspace) {
  if (keyspace === move.source) return SIDES.source;
  return keyspace === move.target ? SIDES.target : SIDES.other;
}

/**
 * Tables for which all columns say the same, together.
 * @param {Panel} panel
 * @param {(state: State, table: string) => unknown} said
 * @returns {string[][]}
 */
export function tablesAlike(panel, said) {
  const groups = new Map();
  for (const table of panel.move.tables) {
    const series = JSON.stringify(panel.states.map((state) => state && said(state, table)));
    groups.set(series, [...(groups.get(series) ?? []), table]);
  }
  return [...groups.values()];
}

/**
 * Shards that have a lane together: neighbours for which all columns say the same. Two have each its own, unless they `mayShare` one.
 * @param {string[]} shards
 * @param {(shard: string) => Values} valuesOf
 * @param {boolean} mayShare
 */
function shardsAlike(shards, valuesOf, mayShare) {
  if (shards.length < 3 && !mayShare) return shards.map((shard) => [shard]);
  return stretches(shards.map(valuesOf)).map(({ from, to }) => shards.slice(from, to + 1));
}

/**
 * Who answers by a table's name, without the table's own name.
 * @param {State} state
 * @param {string} table
 */
export function namesServed(state, table) {
  return Object.values(state.by_name[table]).map((shards) => Object.values(shards).map((value) => serverOf(value, table)));
}

/**
 * Who answers by the name of these tables: lanes for each type.
 * @param {Panel} panel
 * @param {string[]} tables
 * @returns {Lane[]}
 */
export function nameLanes(panel, tables) {
  const [table] = tables;
  return Object.keys(TYPES).flatMap((type) => {
    /** @param {string} shard @returns {Values} */
    const valuesOf = (shard) => panel.states.map((state) => state && serverOf(state.by_name[table][type][shard], table));
    const groups = shardsAlike(panel.move.shards, valuesOf, type !== "primary");
    return labelledAlike(panel, groups.map((shards) => nameLane(panel, tables, type, shards, valuesOf(shards[0]))));
  });
}

/**
 * Lanes with labels of one form, in which all of them have room.
 * @param {Panel} panel
 * @param {Lane[]} lanes
 * @returns {Lane[]}
 */
function labelledAlike(panel, lanes) {
  const fitting = lanes.map(({ labels }) => labels.findIndex((label) => widthOf(label, LANE_WORDS) <= labelRoomOf(panel)));
  const form = fitting.includes(-1) ? -1 : Math.max(...fitting);
  return lanes.map((lane) => ({ ...lane, labels: lane.labels.slice(form) }));
}

/** @param {Panel} panel @param {string[]} tables @param {string} type @param {string[]} shards @param {Values} values @returns {Lane} */
function nameLane(panel, tables, type, shards, values) {
  const keys = shards.length === panel.move.shards.length ? "" : `, keys ${rangeOf(shards)}`;
  const name = `name ${tables.join(",")} ${type} ${shards.join(",")}`;
  const labels = [`${TYPES[type]}${keys}`, `${TYPES[type].split(",")[0]}${keys}`];
  /** @param {Query} query */
  const takes = (query) => query.at === null && tables.includes(query.table) && query.type === type && shards.includes(query.shard);
  return { name, labels, height: 26, values, says: String, draw: (bar) => nameBar(panel.move, bar), marks: marksOf(panel, takes) };
}

/** @param {Move} move @param {Bar} bar */
function nameBar(move, bar) {
  const { left, right, top, height, value } = bar;
  if (value.startsWith("refused ")) return refusedBar(bar, "refused");
  const side = sideOf(move, value.split(".")[0]);
  const text = [value, cut(value, 20), cut(value, 9)].find((it) => clearOfMarks(bar, widthOf(it, LANE_WORDS, true)) !== null) ?? "";
  const x = clearOfMarks(bar, widthOf(text, LANE_WORDS, true)) ?? left;
  return rect(left, top, right - left, height, side.strong) + words(x, top + height / 2 + 4, text, { fill: side.words, "font-weight": 600 });
}

/** @param {Bar} bar @param {string} text */
function refusedBar(bar, text) {
  const { left, right, top, height } = bar;
  const size = height > 16 ? 11 : 10;
  const width = widthOf(text, size, true);
  const x = clearOfMarks(bar, width);
  const frame = rect(left, top + 0.5, right - left, height - 1, REFUSED_FILL, { stroke: RED, "stroke-width": 0.9 });
  if (x === null) return frame;
  const ground = rect(x - 3, top + height / 2 - size / 2 - 1.5, width + 6, size + 3, "#ffffff", { rx: 3 });
  return frame + ground + words(x, top + height / 2 + size / 3, text, { "font-size": size, fill: RED, "font-weight": 600 });
}

/**
 * The marks of the clients' lines that a lane takes; several of a column stand beside each other.
 * @param {Panel} panel
 * @param {(query: Query) => boolean} takes
 */
function marksOf(panel, takes) {
  return panel.states.flatMap((state, column) => {
    const queries = state ? state.queries.filter(takes) : [];
    const middle = (panel.xs[column] + panel.xs[column + 1]) / 2;
    return queries.map(({ write, refused }, place) => ({ x: middle + (place - (queries.length - 1) / 2) * 9, write, refused }));
  });
}

/**
 * What each primary answers clients that ask it for a table.
 * @param {State} state
 * @param {string} table
 */
export function primariesServed(state, table) {
  return Object.values(state.primaries).map((tables) => tables[table]);
}

/**
 * Which primaries take clients that ask them directly for these tables.
 * @param {Panel} panel
 * @param {string[]} tables
 * @returns {Lane[]}
 */
export function primaryLanes(panel, tables) {
  const { move } = panel;
  /** @param {string} keyspace @param {string} shard @returns {Values} */
  const valuesOf = (keyspace, shard) => panel.states.map((state) => whereThere(state && state.primaries[keyspace][tables[0]][shard]));
  const ofTarget = shardsAlike(move.shards, (shard) => valuesOf(move.target, shard), false);
  return [
    primaryLane(panel, move.source, tables, ["-"], valuesOf(move.source, "-")),
    ...ofTarget.map((shards) => primaryLane(panel, move.target, tables, shards, valuesOf(move.target, shards[0]))),
  ];
}

/**
 * Nothing, where the primary has no such table.
 * @param {string | null} answer
 */
function whereThere(answer) {
  return answer === "refused F2 NoTable" ? null : answer;
}

/** @param {Panel} panel @param {string} keyspace @param {string[]} tables @param {string[]} shards @param {Values} values @returns {Lane} */
function primaryLane(panel, keyspace, tables, shards, values) {
  const range = rangeOf(shards);
  const name = `primary ${keyspace} ${tables.join(",")} ${shards.join(",")}`;
  const labels = range === "-" ? [keyspace] : [`${keyspace} ${range}`, range];
  /** @param {Query} query */
  const takes = (query) => query.at === keyspace && tables.includes(query.table) && shards.includes(query.shard);
  return { name, labels, height: 15, values, says: String, draw: (bar) => primaryBar(sideOf(panel.move, keyspace), bar), marks: marksOf(panel, takes) };
}

/** @param {import("./svg.mjs").Side} side @param {Bar} bar */
function primaryBar(side, bar) {
  if (bar.value !== "open") return refusedBar(bar, "closed");
  const { left, right, top, height } = bar;
  const x = clearOfMarks(bar, widthOf("open", 10, true));
  const text = words(x ?? left, top + height / 2 + 3.5, x === null ? "" : "open", { "font-size": 10, fill: side.words, "font-weight": 600 });
  return rect(left, top, right - left, height, side.strong) + text;
}
