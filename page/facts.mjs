/**
 * The facts of a script, as docs/PICTURE.md defines them, and what all parts of a drawing ask them.
 *
 * @typedef {{text: string, answer: string, note: string | null}} Line
 * @typedef {{direction: "forward" | "back", types: string[], steps: number[], done: number, undoing: boolean}} Way
 * @typedef {{direction: "forward" | "back", types: string[], steps: number[], done: number, undone: boolean}} Drive
 * @typedef {{direction: "forward" | "back", shard: string, state: string, position: number, copied: boolean | null, behind: number | null,
 *            rows: number | null}} Stream
 * @typedef {{lines: string[], answers: string[], as_before: number | "unseen" | null}} WayBack
 * @typedef {{table: string, type: string, shard: string, at: string | null, write: boolean, refused: boolean, count: number}} Query
 * @typedef {Record<string, Record<string, Record<string, string>>>} Served
 * @typedef {{live: boolean, switched: string[], way: Way | null, drive: Drive | null, streams: Stream[], by_name: Served, primaries: Served,
 *            way_back: WayBack | null, queries: Query[]}} State
 * @typedef {{workflow: string, source: string, target: string, tables: string[], shards: string[], created: number, ended: number | null,
 *            steps: string[], journal: number}} Move
 * @typedef {{first: number, last: number, moves: (State | null)[]}} Column
 * @typedef {{version: number, title: string, watchers: string[], lines: Line[], refusals: Record<string, {when: string, what_to_do: string}>,
 *            moves: Move[], columns: Column[], numbers?: number[]}} Facts
 */

/**
 * The types of tablets, with what clients ask of each.
 * @type {Record<string, string>}
 */
export const TYPES = { primary: "writes, primary reads", replica: "reads of replica", rdonly: "reads of rdonly" };

/**
 * Equal neighbours as one: from which column to which (both counted), and the value.
 * @template T
 * @param {T[]} values
 * @returns {{from: number, to: number, value: T}[]}
 */
export function stretches(values) {
  /** @type {{from: number, to: number, value: T}[]} */
  const found = [];
  values.forEach((value, column) => {
    const last = found[found.length - 1];
    if (last && JSON.stringify(last.value) === JSON.stringify(value)) last.to = column;
    else found.push({ from: column, to: column, value });
  });
  return found;
}

/**
 * The name of the refusal that an answer tells, as `F3 Denied`; null if it tells none.
 * @param {string} answer
 */
export function refusalIn(answer) {
  const found = /^(?:refused|abandoned|stopped) ([A-Z]\d+ \w+)/.exec(answer);
  return found ? found[1] : null;
}

/**
 * The words of a line.
 * @param {string} text
 */
export function wordsIn(text) {
  return text.split(/[ \t]+/).filter((word) => word !== "");
}

/**
 * The lines of a column, as far as they are told.
 * @param {Facts} facts
 * @param {Column} column
 * @returns {Line[]}
 */
export function linesOf(facts, { first, last }) {
  const { lines, numbers } = facts;
  return numbers ? lines.filter((_, place) => first <= numbers[place] && numbers[place] <= last) : lines.slice(first - 1, last);
}

/**
 * The number of the line at a place of those that are told.
 * @param {Facts} facts
 * @param {number} place
 */
export function numberAt({ numbers }, place) {
  return numbers ? numbers[place] : place + 1;
}

/**
 * How many lines stand in a column, told or not.
 * @param {Column} column
 */
export function lineCount({ first, last }) {
  return last - first + 1;
}

/**
 * The numbers of a column's lines, as `6` or `1-5`.
 * @param {Column} column
 */
export function numbersOf(column) {
  return column.first === column.last ? `${column.first}` : `${column.first}-${column.last}`;
}

/**
 * The refusals of a column's lines, each once.
 * @param {Facts} facts
 * @param {Column} column
 * @returns {string[]}
 */
export function refusalsOf(facts, column) {
  const names = linesOf(facts, column).map((line) => refusalIn(line.answer) ?? "");
  return [...new Set(names.filter((name) => name !== ""))];
}

/**
 * Who serves a table by its name, in short: the keyspace, with another table behind it if the name leads to one; or the refusal.
 * @param {string} value what `by_name` has
 * @param {string} table
 */
export function serverOf(value, table) {
  return value.endsWith(`.${table}`) ? value.slice(0, -table.length - 1) : value;
}

/**
 * The key range that neighbouring shards have together.
 * @param {string[]} shards
 */
export function rangeOf(shards) {
  return `${shards[0].split("-")[0]}-${shards[shards.length - 1].split("-")[1]}`;
}

/**
 * One, or several of a thing.
 * @param {number} count
 * @param {string} one
 * @param {string} [several]
 */
export function counted(count, one, several = `${one}s`) {
  return `${count.toLocaleString("en")} ${count === 1 ? one : several}`;
}
