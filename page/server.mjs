/** How the page asks its controller: over its own server alone, with the token that it was opened with. */

const PATIENCE = 5000; // milliseconds
const TOKEN = "mt-token";

/** The controller answers that it won't do what was asked; the text says why, and `status` is that of HTTP. */
export class NotAnswered extends Error {
  /** @param {number} status @param {string} why */
  constructor(status, why) {
    super(why);
    this.status = status;
  }
}

/** Takes the token out of the address, where it stands as `#token=..`, and keeps it for this tab. */
export function takeToken() {
  const found = /^#token=(.+)$/.exec(location.hash);
  if (!found) return;
  keepToken(decodeURIComponent(found[1]));
  history.replaceState(null, "", location.pathname);
}

/** @param {string} token */
export function keepToken(token) {
  sessionStorage.setItem(TOKEN, token);
}

/**
 * What the controller answers. Throws `NotAnswered` if it refuses; anything else that is thrown says that it can't be reached.
 * @param {string} path
 * @param {object} asked
 * @returns {Promise<any>}
 */
export async function answered(path, asked) {
  const token = sessionStorage.getItem(TOKEN);
  /** @type {Record<string, string>} */
  const headers = { "Content-Type": "application/json", ...(token ? { Authorization: `Bearer ${token}` } : {}) };
  const how = { method: "POST", headers, body: JSON.stringify(asked), credentials: /** @type {const} */ ("omit"), signal: AbortSignal.timeout(PATIENCE) };
  const told = await fetch(path, how);
  if (!told.ok) throw new NotAnswered(told.status, (await told.text()).trim());
  return told.json();
}

/** A key that no other line has. */
export function newKey() {
  return [...crypto.getRandomValues(new Uint8Array(16))].map((it) => it.toString(16).padStart(2, "0")).join("");
}
