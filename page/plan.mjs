/** The steps of a switch or of a reversal, in the order in which they are taken; as tools/mt_runs/plan.py has them. */

/** The place of the journal among the twelve steps, behind which none is undone. */
export const JOURNAL = 6;
const READS = 0;
const DENY = 1;
const REFRESH_OLD = 2;
const REFRESH_NEW = 8;
const FREEZE = 11;

/**
 * The names of the twelve, for the side that served before the way, and for the one that serves behind it.
 * @param {string} old
 * @param {string} fresh
 */
function namesFor(old, fresh) {
  return [
    `reads: rules lead to ${fresh}`,
    `deny the tables at ${old}`,
    `refresh the primary of ${old}`,
    "wait for the streams",
    "stop the streams",
    "make the streams back",
    "the journal",
    `allow the tables at ${fresh}`,
    `refresh the primary of ${fresh}`,
    `writes: rules lead to ${fresh}`,
    "start the streams back",
    "freeze the old streams",
  ];
}

/**
 * The names of the twelve steps, for a move on which ways of these directions are opened.
 * @param {Set<string>} directions
 */
export function stepNames(directions) {
  if (directions.size > 1) return namesFor("the old side", "the new side");
  if (!directions.has("back")) return namesFor("the source", "the target");
  return namesFor("the target", "the source").with(FREEZE, "remove the old streams"); // what a reversal does in place of freezing them
}

/**
 * The steps of a way by their numbers among the twelve; one that is done for each shard stands there so often.
 * @param {string[]} types
 * @param {boolean} back
 * @param {string[]} shards
 */
export function stepNumbers(types, back, shards) {
  const reads = types.some((type) => type !== "primary") ? [READS] : [];
  const writes = types.includes("primary") ? Array.from({ length: FREEZE - DENY + 1 }, (_, place) => DENY + place) : [];
  const perShard = back ? REFRESH_OLD : REFRESH_NEW;
  return [...reads, ...writes].flatMap((number) => (number === perShard ? shards.map(() => number) : [number]));
}
