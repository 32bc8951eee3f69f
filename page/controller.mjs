/** The page of a controller: the last lines of its log, the picture of the moves as they stand, and a field for a line. */

import { counted } from "./facts.mjs";
import { framed, keepInSight, showLastColumn } from "./framed.mjs";
import { loggedTold, rowsOf, sentTold } from "./logged.mjs";
import { NotAnswered, answered, keepToken, newKey, takeToken } from "./server.mjs";
import { element, escaped } from "./svg.mjs";
import { accountTable } from "./tables.mjs";

/** @typedef {import("./logged.mjs").Sent} Sent */

/**
 * What the controller tells of itself.
 * @typedef {{run: string, name: string, watched: string[], applied: number, away: string | null, ended: string | null}} Told
 */

// A browser opens only six connections to a server, for all tabs together. So each asks again and again, and is answered at once: one that were held
// until something is new would take a connection from the others.
const ASKS_EVERY = 350; // milliseconds
const TRIES_EVERY = 1000;
const MOST_LINES = 200;
const UNAUTHORIZED = 401;
const ANEW = "the controller was started anew while it waited; the lines above show whether it stands in the log";

/** @type {Told} */
let told = { run: "", name: "", watched: [], applied: 0, away: null, ended: null };
/** @type {import("./logged.mjs").Logged[]} */
let lines = [];
/** @type {Sent[]} */
let sent = [];
/** @type {import("./gathering.mjs").Refusals} */
let refusals = {};
/** @type {import("./facts.mjs").Facts | null} */
let drawn = null;
let picture = 0; // its number
let frameWidth = 0; // of the box for which it was drawn
let isAtEnd = true; // whether it is scrolled to its last column
/** @type {number | null} */
let chosen = null; // the number of the line that is told
let notice = ""; // why nothing was sent
let recalled = 0; // how many lines back the field's is, of those that were sent
/** @type {Date | null} */
let lostAt = null;
const narrow = matchMedia("(max-width: 700px)");

/**
 * The element of a name; there is one, by controller.html.
 * @param {string} name
 */
function byId(name) {
  return /** @type {HTMLElement} */ (document.getElementById(name));
}

const field = /** @type {HTMLInputElement} */ (byId("field"));

// ---- what the controller tells

/** Asks how it stands, shows that, and asks again in a moment, for ever. */
async function follow() {
  let pause = ASKS_EVERY;
  try {
    if (!Object.keys(refusals).length) refusals = await answered("refusals", {});
    const waits = sent.filter((it) => it.isSent && !it.outcome).map((it) => it.key);
    take(await answered("state", { run: told.run, applied: told.applied, picture, waits: waits.slice(-100) }));
    lostAt = null;
    showStatus();
  } catch (error) {
    pause = TRIES_EVERY;
    lostAt ??= new Date();
    showLost(error);
  }
  setTimeout(follow, pause);
}

/** @param {any} news */
function take(news) {
  const isOther = news.run !== told.run;
  const isFirst = told.run === "";
  told = news;
  if (isOther && !isFirst) sent = sent.map((it) => (it.outcome ? it : { ...it, outcome: { taken: [], problem: ANEW } }));
  sent = sent.map((it) => (it.outcome || !news.outcomes[it.key] ? it : { ...it, outcome: news.outcomes[it.key] }));
  if (isOther || news.lines.length) takeLines(isOther ? news.lines : [...lines, ...news.lines]);
  if (news.picture) takePicture(news.picture);
  showLine();
}

/** @param {import("./logged.mjs").Logged[]} found */
function takeLines(found) {
  lines = found.slice(-MOST_LINES);
  showLines();
}

/** @param {{number: number, shown: {facts: import("./facts.mjs").Facts | null, words: string}}} news */
function takePicture({ number, shown }) {
  picture = number;
  drawn = shown.facts;
  byId("facts").textContent = drawn ? JSON.stringify(drawn) : "";
  byId("words").textContent = shown.words;
  frame();
  showAccount();
}

// ---- what is shown

/** @param {string} kind @param {string} text */
function say(kind, text) {
  const status = byId("status");
  document.body.classList.toggle("unreached", kind === "wrong");
  document.title = `${kind === "well" ? "" : "✕ "}mt: ${told.name || "a controller"}`;
  if (status.textContent === text && status.className === kind) return;
  status.textContent = text;
  status.className = kind;
}

function showStatus() {
  byId("entrance").hidden = true;
  const watched = told.watched.length ? `watches ${told.watched.join(" ")}` : "watches no keyspace";
  byId("log").textContent = `Log ${told.name}, ${watched}; ${counted(told.applied, "line")}`;
  if (told.ended !== null) say("wrong", `The controller has ended: ${told.ended}. This page goes on once it is started again here.`);
  else if (told.away !== null) say("waits", `The log doesn't answer at the moment, and lines wait until it does: ${told.away}`);
  else say("well", "Connected: each line that stands here is in the log");
}

/** @param {unknown} error */
function showLost(error) {
  const isRefused = error instanceof NotAnswered;
  byId("entrance").hidden = !(isRefused && error.status === UNAUTHORIZED);
  const since = lostAt?.toLocaleTimeString("en-GB");
  if (isRefused) say("wrong", `The controller doesn't answer this page: ${error.message}.`);
  else if (told.ended !== null) say("wrong", `The controller has ended: ${told.ended}. This page goes on once it is started again here.`);
  else say("wrong", `The controller can't be reached since ${since}. This page goes on once it is there again.`);
}

function showLines() {
  const box = byId("lines");
  const wasAtEnd = box.scrollTop + box.clientHeight >= box.scrollHeight - 24;
  box.innerHTML = rowsOf(lines, chosen).join("");
  if (wasAtEnd) box.scrollTop = box.scrollHeight;
}

/** Tells the line that was chosen, or else those that wait and the last that was sent. */
function showLine() {
  const line = lines.find(([number]) => number === chosen);
  const waiting = sent.filter((it) => !it.outcome);
  const last = sent.filter((it) => it.outcome).slice(-1);
  const why = told.away !== null ? ", as the log doesn't answer at the moment" : "";
  const asked = line ? loggedTold(line, refusals) : [...last, ...waiting].map((it) => sentTold(it, why)).join("");
  const shown = (notice ? element("p", { class: "problem" }, escaped(notice)) : asked) || "<p>No line was sent from this page yet.</p>";
  if (byId("line").dataset.text === shown) return;
  byId("line").dataset.text = shown;
  byId("line").innerHTML = shown;
}

/** Shows the drawing, at its last column unless it was scrolled away from there. */
function frame() {
  const box = byId("picture");
  const wasAtEnd = isAtEnd;
  box.innerHTML = " "; // so that it has its width
  frameWidth = box.clientWidth;
  const { head, drawing, foot } = drawn ? framed(drawn, frameWidth, narrow.matches) : { head: "", drawing: "", foot: "" };
  byId("head").innerHTML = head;
  box.innerHTML = drawing;
  byId("meanings").innerHTML = foot;
  keepInSight(box);
  if (wasAtEnd) showLastColumn(box);
  isAtEnd = wasAtEnd;
}

/** Where the picture is scrolled to, unless that comes of another size. */
function scrolled() {
  const box = byId("picture");
  if (frameWidth === box.clientWidth) isAtEnd = box.scrollLeft + box.clientWidth >= box.scrollWidth - 2;
}

/** The same in words, if it is unfolded. */
function showAccount() {
  const details = /** @type {HTMLDetailsElement} */ (byId("told"));
  details.hidden = !drawn;
  byId("account").innerHTML = details.open && drawn ? accountTable(drawn) : "";
}

// ---- what is asked for

/** Sends the field's line. */
async function send() {
  const line = field.value.trim();
  if (line === "") return;
  const key = newKey();
  sent = [...sent.slice(1 - MOST_LINES), { key, line, isSent: false, outcome: null }];
  [field.value, chosen, recalled, notice] = ["", null, 0, ""];
  showLine();
  const outcome = await outcomeOf(key, line);
  // of one whose answer didn't come back the controller says what came of it
  sent = sent.map((it) => (it.key === key ? { ...it, isSent: true, outcome: it.outcome ?? outcome } : it));
  showLine();
}

/**
 * What came of a line; null if that isn't known yet.
 * @param {string} key
 * @param {string} line
 * @returns {Promise<import("./logged.mjs").Outcome | null>}
 */
async function outcomeOf(key, line) {
  try {
    return (await answered("line", { key, line })).outcome;
  } catch (error) {
    return error instanceof NotAnswered ? { taken: [], problem: error.message } : null;
  }
}

/** @param {KeyboardEvent} event */
function recall(event) {
  const by = { ArrowUp: 1, ArrowDown: -1 }[event.key] ?? 0;
  if (!by) return;
  recalled = Math.min(Math.max(recalled + by, 0), sent.length);
  field.value = recalled ? sent[sent.length - recalled].line : "";
  event.preventDefault();
}

/** @param {ClipboardEvent} event */
function pasted(event) {
  const text = event.clipboardData?.getData("text") ?? "";
  if (!/[\r\n]/.test(text.trim())) return;
  event.preventDefault();
  notice = "Several lines aren't taken at once here: tools/controller takes them with --batch.";
  showLine();
}

/** @param {MouseEvent} event */
function choose(event) {
  const row = event.target instanceof Element ? event.target.closest("li")?.querySelector("button") : null;
  if (!row) return;
  [chosen, notice] = [Number(row.dataset.number), ""];
  for (const it of byId("lines").children) it.classList.toggle("current", it.contains(row));
  showLine();
}

function listen() {
  byId("ask").addEventListener("submit", (event) => {
    event.preventDefault();
    send();
  });
  byId("entrance").addEventListener("submit", (event) => {
    event.preventDefault();
    keepToken(/** @type {HTMLInputElement} */ (byId("token")).value.trim());
  });
  field.addEventListener("keydown", recall);
  field.addEventListener("paste", pasted);
  byId("lines").addEventListener("click", choose);
  byId("told").addEventListener("toggle", showAccount);
  byId("picture").addEventListener("scroll", scrolled);
  window.addEventListener("resize", () => drawn && frameWidth !== byId("picture").clientWidth && frame());
}

takeToken();
listen();
follow();
