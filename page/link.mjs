/** A script in the fragment of an address: whoever opens the link has the script, and no server is asked. */

/**
 * What a link holds: the script, the words for the watched keyspaces (empty if they are the script's own), and how many lines are run, null for all.
 * @typedef {{text: string, watched: string, at: number | null}} Linked
 */

/** A link that holds no whole script. */
export class SpoiltLink extends Error {}

const CHUNK = 8192;

/**
 * The fragment of a link, without its `#`.
 * @param {Linked} linked
 */
export function fragmentOf({ text, watched, at }) {
  const bytes = new TextEncoder().encode(text);
  const parts = [`script=${base64Of(bytes)}`, `sum=${sumOf(bytes)}`];
  if (watched) parts.push(`watched=${encodeURIComponent(watched)}`);
  if (at !== null) parts.push(`at=${at}`);
  return parts.join("&");
}

/**
 * What a fragment holds; null if it is none of a link. Throws `SpoiltLink` if the script isn't whole.
 * @param {string} fragment
 * @returns {Linked | null}
 */
export function readFragment(fragment) {
  const parts = new URLSearchParams(fragment.replace(/^#/, ""));
  const [script, sum, at] = [parts.get("script"), parts.get("sum"), parts.get("at")];
  if (script === null) return null;
  try {
    const bytes = bytesOf(script);
    if (sumOf(bytes) !== sum) throw new SpoiltLink();
    const text = new TextDecoder("utf-8", { fatal: true, ignoreBOM: true }).decode(bytes);
    return { text, watched: parts.get("watched") ?? "", at: at !== null && /^[0-9]{1,7}$/.test(at) ? Number(at) : null };
  } catch {
    throw new SpoiltLink("the link is spoilt: it holds no whole script");
  }
}

/** @param {Uint8Array} bytes */
function base64Of(bytes) {
  let text = "";
  for (let at = 0; at < bytes.length; at += CHUNK) text += String.fromCharCode(...bytes.subarray(at, at + CHUNK));
  return btoa(text).replaceAll("+", "-").replaceAll("/", "_").replace(/=+$/, "");
}

/** @param {string} text */
function bytesOf(text) {
  return Uint8Array.from(atob(text.replaceAll("-", "+").replaceAll("_", "/")), (it) => it.charCodeAt(0));
}

/**
 * A sum that tells whether bytes are others, not who changed them (FNV-1a of 32 bits).
 * @param {Uint8Array} bytes
 */
function sumOf(bytes) {
  const sum = bytes.reduce((before, byte) => Math.imul(before ^ byte, 16777619) >>> 0, 2166136261);
  return sum.toString(16).padStart(8, "0");
}
