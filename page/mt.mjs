/** The controller as a WebAssembly module with 64-bit memory: what a page calls of it. The module imports nothing; embed/mt.h has its functions. */

/** What a call ends with, by its status. */
const STATUSES = ["done", "no memory", "no room", "closed", "open already", "no keyspaces' names", "the script is too long"];
const DONE = 0;
const NO_MEMORY = 1;
const NO_ROOM = 2;
const FIRST_ROOM = 65536;

/** The module did nothing, for this reason. */
export class Refused extends Error {}

/**
 * A module that is compiled and set up: its exports.
 * @typedef {Record<string, any>} Module
 */

/**
 * Compiles a module and sets it up.
 * @param {Uint8Array} bytes
 * @returns {Promise<Module>}
 */
export async function loadedModule(bytes) {
  const { instance } = await WebAssembly.instantiate(bytes, {});
  return instance.exports;
}

/**
 * What `mt run` writes for a script, with the primaries of these keyspaces watched. Throws `Refused`.
 * @param {Module} module
 * @param {string} script
 * @param {string[]} keyspaces
 * @returns {string}
 */
export function runBy(module, script, keyspaces) {
  return lent(module, keyspaces.join(" "), (names, namesLength) =>
    lent(module, script, (text, length) =>
      answered(module, (at, size, written) => module.mt_run(names, namesLength, text, length, at, size, written)),
    ),
  );
}

/**
 * The version of the library, as `1.0.0`; null if the module doesn't tell it.
 * @param {Module} module
 */
export function versionOf(module) {
  if (!module.mt_version) return null;
  const number = module.mt_version();
  return [Math.floor(number / 1000000), Math.floor(number / 1000) % 1000, number % 1000].join(".");
}

/**
 * Room in the module's memory for so many bytes, which the caller frees. Addresses in a 64-bit memory are BigInts.
 * @param {Module} module
 * @param {number} size
 * @returns {bigint}
 */
function roomFor(module, size) {
  const at = module.malloc(BigInt(size || 1));
  if (at === 0n) throw new Refused(STATUSES[NO_MEMORY]);
  return at;
}

/**
 * The bytes that stand there. A call may grow the memory, behind which an older view is empty.
 * @param {Module} module
 * @param {bigint} at
 * @param {number} size
 */
function bytesAt(module, at, size) {
  return new Uint8Array(module.memory.buffer, Number(at), size);
}

/**
 * Hands a text to a call, and frees it behind.
 * @template T
 * @param {Module} module
 * @param {string} text
 * @param {(at: bigint, length: bigint) => T} call
 * @returns {T}
 */
function lent(module, text, call) {
  const bytes = new TextEncoder().encode(text);
  const at = roomFor(module, bytes.length);
  try {
    bytesAt(module, at, bytes.length).set(bytes);
    return call(at, BigInt(bytes.length));
  } finally {
    module.free(at);
  }
}

/**
 * Calls with room for an output, once more with as much as it takes if that was too little, and gives the output.
 * @param {Module} module
 * @param {(at: bigint, size: bigint, written: bigint) => number} call
 */
function answered(module, call) {
  let size = FIRST_ROOM;
  for (;;) {
    const at = roomFor(module, size + 8);
    const written = at + BigInt(size);
    try {
      const status = call(at, BigInt(size), written);
      const length = Number(new DataView(module.memory.buffer).getBigUint64(Number(written), true));
      if (status === DONE) return new TextDecoder().decode(bytesAt(module, at, length));
      if (status !== NO_ROOM || length <= size) throw new Refused(STATUSES[status] ?? `status ${status}`);
      size = Math.ceil(length / 8) * 8;
    } finally {
      module.free(at);
    }
  }
}
