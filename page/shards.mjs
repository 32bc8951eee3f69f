/** Key ranges, by which shards are called: `-80`, `40-80`, `80-`, and `-` for all keys; as tools/mt_runs/shards.py reads them. */

const DIGITS = 16; // of a key, each half a byte
const KEYS = 1n << 64n;

/**
 * The lowest key of a shard.
 * @param {string} shard
 * @returns {bigint}
 */
export function firstKey(shard) {
  return boundOf(shard.split("-")[0]);
}

/** @param {string} shard */
function endKey(shard) {
  const [, end] = shard.split("-");
  return end ? boundOf(end) : KEYS;
}

/** @param {string} digits */
function boundOf(digits) {
  return BigInt(`0x${digits.padEnd(DIGITS, "0")}`);
}

/**
 * Which of the shards has a key.
 * @param {string[]} shards
 * @param {bigint} key
 * @returns {string}
 */
export function shardOf(shards, key) {
  const found = shards.find((shard) => firstKey(shard) <= key && key < endKey(shard));
  if (found === undefined) throw new Error(`no shard of ${shards.join(", ")} has the key ${key}`);
  return found;
}

/**
 * The number of a row's key; null if it is none.
 * @param {string} word
 */
export function keyIn(word) {
  if (!/^[0-9]+$/.test(word)) return null;
  const key = BigInt(word);
  return key < KEYS ? key : null;
}
