/** What `dump` answers: the topology; as tools/mt_runs/topology.py reads it. */

/**
 * Keyspaces by their names with their shards and tables; the target of each rule by its key; and the denied tables, as `keyspace.table`.
 * @typedef {{keyspaces: Map<string, {name: string, shards: string[], tables: string[]}>, rules: Map<string, string>, denied: Set<string>}} Topology
 */

/**
 * The topology of which `dump` answered this line.
 * @param {string} line
 * @returns {Topology}
 */
export function parsedDump(line) {
  /** @type {{keyspaces: {name: string, shards: string[], tables: string[]}[], rules: {from_table: string, to_tables: string[]}[], denied: string[]}} */
  const document = JSON.parse(line);
  const keyspaces = new Map(document.keyspaces.map((it) => [it.name, it]));
  const rules = new Map(document.rules.map((it) => [it.from_table, it.to_tables[0]]));
  return { keyspaces, rules, denied: new Set(document.denied) };
}

/**
 * Where the rules lead a table's bare name for a tablet type, by the look-up of docs/SCRIPT.md; null if they lead nowhere.
 * @param {Topology} topology
 * @param {string} table
 * @param {string} type
 */
export function ledTo({ keyspaces, rules }, table, type) {
  const rule = rules.get(`${table}@${type}`) ?? rules.get(table);
  if (rule) return rule;
  const holders = [...keyspaces.values()].filter((it) => it.tables.includes(table));
  return holders.length === 1 ? `${holders[0].name}.${table}` : null;
}

/**
 * What a move has of a topology, as a text to compare: the rules of its tables' twelve names, and at which of both sides its tables stand and are denied.
 * @param {Topology} topology
 * @param {{source: string, target: string, tables: string[]}} move
 */
export function partOf({ keyspaces, rules, denied }, { source, target, tables }) {
  const sides = [source, target].flatMap((side) => tables.map((table) => `${side}.${table}`));
  const names = new Set([...sides, ...tables]);
  const own = [...rules].filter(([key]) => names.has(key.split("@")[0])).map(([key, to]) => `${key} ${to}`);
  const present = [source, target].flatMap((side) => tables.filter((table) => keyspaces.get(side)?.tables.includes(table)).map((table) => `${side}.${table}`));
  return JSON.stringify([own.sort(), present.sort(), sides.filter((it) => denied.has(it)).sort()]);
}
