/** What `show W` answers: how a move stands; as tools/mt_runs/show.py reads it. */

/**
 * A stream of one shard; `copied` is null of one back, which copies nothing.
 * @typedef {{state: string, position: number, copied: boolean | null}} Shown
 *
 * A switch that is open, or a reversal (`back`).
 * @typedef {{back: boolean, types: string[], done: number, undoing: boolean}} OpenWay
 *
 * A live workflow. Its streams stand by the shards of the target, in their order.
 * @typedef {{name: string, switched: string[], way: OpenWay | null, forward: Map<string, Shown>, back: Map<string, Shown>}} ShownMove
 */

const STREAM_STATES = ["running", "stopped", "frozen"];

/**
 * A stream as lines name it: `forward` or `back`, with the shard behind it unless the target isn't sharded.
 * @param {string} direction
 * @param {string} shard
 */
export function streamWord(direction, shard) {
  return shard === "-" ? direction : `${direction}/${shard}`;
}

/**
 * The move of which `show` answered this line.
 * @param {string} line
 * @returns {ShownMove}
 */
export function parsedShow(line) {
  const words = line.split(" ");
  if (words[4] !== "switched" || words[6] !== "way") throw otherwise(line);
  const { way, rest } = parsedWay(words.slice(7));
  // a keyspace may be called `forward` or `back`, so these are looked for by their places
  const behind = rest[rest.length - 1] === "none" ? rest.length - 2 : rest.lastIndexOf("back");
  if (rest[0] !== "forward" || rest[behind] !== "back") throw otherwise(line);
  const back = rest.slice(behind + 1);
  const streams = { forward: parsedStreams(rest.slice(1, behind), 4), back: back.join(" ") === "none" ? new Map() : parsedStreams(back, 3) };
  return { name: words[0], switched: listed(words[5]), way, ...streams };
}

/** @param {string} line */
function otherwise(line) {
  return new Error(`show was answered otherwise than docs/SCRIPT.md says: ${line.slice(0, 200)}`);
}

/** @param {string} word */
function listed(word) {
  return word === "-" ? [] : word.split(",");
}

/**
 * The way that is open, and the words behind it.
 * @param {string[]} words
 */
function parsedWay(words) {
  if (words[0] === "none") return { way: null, rest: words.slice(1) };
  const undoing = words[3] === "undoing";
  const way = { back: words[0] === "back", types: listed(words[1]), done: Number(words[2]), undoing };
  return { way, rest: words.slice(undoing ? 4 : 3) };
}

/**
 * The streams by their shards; of a target that isn't sharded the one word `-` is left out.
 * @param {string[]} given
 * @param {number} width how many words each has
 * @returns {Map<string, Shown>}
 */
function parsedStreams(given, width) {
  const words = STREAM_STATES.includes(given[0]) ? ["-", ...given] : given;
  if (!words.length || words.length % width) throw otherwise(given.join(" "));
  const starts = words.flatMap((_, at) => (at % width ? [] : [at]));
  return new Map(starts.map((at) => [words[at], parsedStream(words.slice(at + 1, at + width))]));
}

/** @param {string[]} words */
function parsedStream(words) {
  if (!STREAM_STATES.includes(words[0]) || ![undefined, "copying", "copied"].includes(words[2])) throw otherwise(words.join(" "));
  return { state: words[0], position: Number(words[1]), copied: words.length > 2 ? words[2] === "copied" : null };
}
