/** The page in which the controller runs: a script with its answers, and the picture of its moves up to the line that was run last. */

import { CannotDraw } from "./moves.mjs";
import { gatheredFacts, linesTold, nothingKnown, refusalsOfAnswers, stillKnown } from "./gathering.mjs";
import { SpoiltLink, fragmentOf, readFragment } from "./link.mjs";
import { Refused, loadedModule, versionOf } from "./mt.mjs";
import { MOST_ROWS, Superseded, answersTo, askingInTurns, beginningOf } from "./running.mjs";
import { MOST_BYTES, readScript } from "./script.mjs";
import { lineTold, editorRows } from "./editor.mjs";
import { counted } from "./facts.mjs";
import { framed, keepInSight, showLastColumn } from "./framed.mjs";
import { escaped } from "./svg.mjs";
import { accountTable, linesTable } from "./tables.mjs";

/**
 * What stands in the page: the name of the script that is saved, how many of its lines are run (null for all), and which row is told.
 * @typedef {{name: string, at: number | null, row: number | null}} Standing
 */

const FIRST_EXAMPLE = "two_shards";
const OWN_NAME = "move";
const NO_MOVE = "No move has begun yet. The picture begins with the first create that is answered ok.";

/** @type {{name: string, text: string}[]} */
const examples = JSON.parse(byId("examples").textContent ?? "");
/** @type {import("./gathering.mjs").Refusals} */
const refusals = JSON.parse(byId("refusals").textContent ?? "");
const field = /** @type {HTMLTextAreaElement} */ (byId("script"));
const watchedField = /** @type {HTMLInputElement} */ (byId("watched"));
const choice = /** @type {HTMLSelectElement} */ (byId("example"));
const slider = /** @type {HTMLInputElement} */ (byId("position"));

/** @type {import("./mt.mjs").Module | null} */
let module = null;
/** @type {Standing} */
let standing = { name: FIRST_EXAMPLE, at: null, row: null };
let known = nothingKnown();
let turn = 0; // of drawing, counted: an older one ends when a newer begins
/** @type {{script: import("./script.mjs").Script, answers: string[]}} */
let asked = { script: readScript("", []), answers: [] };
/** @type {import("./facts.mjs").Facts | null} */
let drawn = null;
const narrow = matchMedia("(max-width: 700px)");
let frameWidth = 0; // of the box for which the picture was drawn
let own = { text: "", watched: "" }; // what was typed, or came by a link

/**
 * The element of a name; there is one, by index.html.
 * @param {string} name
 */
function byId(name) {
  return /** @type {HTMLElement} */ (document.getElementById(name));
}

/** @param {string} text @param {boolean} [isWrong] */
function say(text, isWrong = false) {
  byId("said").textContent = text;
  byId("said").className = isWrong ? "wrong" : "";
}

function scriptNow() {
  return readScript(field.value, watchedField.value.split(/\s+/).filter((word) => word !== ""));
}

/**
 * Why a text isn't run here; empty if it is.
 * @param {string} text
 */
function tooLong(text) {
  const rows = text.replace(/\n$/, "").split("\n").length;
  if (rows > MOST_ROWS) return `The script has ${counted(rows, "line")}, and this page runs ${MOST_ROWS.toLocaleString("en")} at most. The command mt run takes more.`;
  const bytes = new TextEncoder().encode(text).length;
  return bytes > MOST_BYTES ? `The script has ${counted(bytes, "byte")}, and mt reads ${MOST_BYTES.toLocaleString("en")} at most.` : "";
}

// ---- what is shown

/** Shows what stands: the answers at once, the picture behind them. */
function show() {
  const text = field.value;
  const script = scriptNow();
  const count = Math.min(standing.at ?? script.lines.length, script.lines.length);
  watchedField.placeholder = readScript(text, []).watchers.join(" ") || "none";
  if (module) byId("problem").textContent = tooLong(text);
  const answers = byId("problem").textContent ? [] : answersOrProblem(script, count);
  showEditor(text, script, answers);
  showPosition(script, answers.length);
  showPicture(beginningOf(script, count), answers);
}

/** @param {import("./script.mjs").Script} script @param {number} count */
function answersOrProblem(script, count) {
  try {
    return module ? answersTo(module, script.lines.slice(0, count), script.watchers) : [];
  } catch (error) {
    byId("problem").textContent = problemOf(error);
    return [];
  }
}

/**
 * What an error means for whoever sees the page. Behind one that ends the module's code in the middle nothing more is asked of that module.
 * @param {unknown} error
 */
function problemOf(error) {
  const said = error instanceof Error ? error.message : String(error);
  if (error instanceof WebAssembly.RuntimeError) {
    module = null;
    disableRuns();
    return `The controller stopped in the middle (${said}). The script can be saved; open the page anew to run it.`;
  }
  const isOfNames = error instanceof Refused && said === "no keyspaces' names";
  return isOfNames ? "Nothing is run: of the watched keyspaces a word is no keyspace's name, or they are more than 31." : `Nothing is run: ${said}.`;
}

/** @param {string} text @param {import("./script.mjs").Script} script @param {string[]} answers */
function showEditor(text, script, answers) {
  byId("rows").innerHTML = tooLong(text) ? "" : editorRows(text, script, answers);
  const current = byId("rows").querySelector(".current");
  if (current instanceof HTMLElement && document.activeElement !== field) scrollTo(byId("editor"), current);
  showLine(text, script, answers);
}

/**
 * Scrolls a box so far that one of its rows is seen, and not the page.
 * @param {HTMLElement} box
 * @param {HTMLElement} row
 */
function scrollTo(box, row) {
  const [top, bottom] = [row.offsetTop - 2 * row.offsetHeight, row.offsetTop + 3 * row.offsetHeight];
  if (top < box.scrollTop) box.scrollTop = top;
  else if (bottom > box.scrollTop + box.clientHeight) box.scrollTop = bottom - box.clientHeight;
}

/**
 * Tells the line that was run last, or the one that is asked for.
 * @param {string} text
 * @param {import("./script.mjs").Script} script
 * @param {string[]} answers
 */
function showLine(text, script, answers) {
  const row = standing.row ?? script.rows[answers.length - 1];
  const place = script.rows.indexOf(row ?? -1);
  const rows = text.split("\n");
  const isThere = row !== undefined && row < rows.length && !byId("problem").textContent;
  byId("line").innerHTML = isThere ? lineTold(row, rows[row], answers[place], refusals) : "<p>No line is run yet.</p>";
}

/** @param {import("./script.mjs").Script} script @param {number} count */
function showPosition(script, count) {
  const all = script.lines.length;
  slider.max = String(all);
  slider.value = String(count);
  slider.setAttribute("aria-valuetext", `${count} of ${counted(all, "line")} run`);
  byId("count").textContent = `${count} of ${counted(all, "line")} run`;
  button("back").disabled = !module || count === 0;
  button("on").disabled = !module || count === all;
}

/** @param {string} name */
function button(name) {
  return /** @type {HTMLButtonElement} */ (byId(name));
}

/**
 * Draws the lines that are run, as soon as what stands behind each is gathered.
 * @param {import("./script.mjs").Script} script
 * @param {string[]} answers
 */
async function showPicture(script, answers) {
  turn += 1;
  const mine = turn;
  asked = { script, answers };
  if (!module || answers.length !== script.lines.length) return showDrawing(null, module ? "" : "Nothing is drawn, as the controller doesn't run in this browser.");
  known = stillKnown(known, script);
  byId("picture").setAttribute("aria-busy", "true");
  try {
    const facts = await gatheredFacts(askingInTurns(module, script.watchers, () => mine === turn), script, refusals, known);
    if (mine === turn) showDrawing(facts, "");
  } catch (error) {
    if (error instanceof Superseded || mine !== turn) return;
    if (error instanceof WebAssembly.RuntimeError) byId("problem").textContent = problemOf(error);
    const isNone = error instanceof CannotDraw;
    showDrawing(null, isNone && error.message.endsWith("no move") ? NO_MOVE : `There is no picture: ${error instanceof Error ? error.message : error}.`);
  }
}

/** @param {import("./facts.mjs").Facts | null} facts @param {string} instead */
function showDrawing(facts, instead) {
  drawn = facts;
  byId("picture").removeAttribute("aria-busy");
  byId("facts").textContent = facts ? JSON.stringify(facts) : "";
  frame(`<p class="none">${escaped(instead)}</p>`);
  showTables();
}

/** The same in words, if it is unfolded. */
function showTables() {
  const isOpen = /** @type {HTMLDetailsElement} */ (byId("words")).open;
  const lines = /** @type {any} */ ({ lines: linesTold(asked.script, asked.answers), refusals: refusalsOfAnswers(asked.answers, refusals) });
  byId("tables").innerHTML = isOpen ? linesTable(lines) : "";
  byId("account").innerHTML = isOpen && drawn ? accountTable(drawn) : "";
}

/**
 * Shows the drawing, or else some words in its place.
 * @param {string} instead
 */
function frame(instead) {
  const box = byId("picture");
  const wasAtEnd = box.scrollLeft + box.clientWidth >= box.scrollWidth - 2;
  frameWidth = box.clientWidth;
  const { head, drawing, foot } = drawn ? framed(drawn, frameWidth, narrow.matches) : { head: "", drawing: instead, foot: "" };
  byId("head").innerHTML = head;
  box.innerHTML = drawing;
  byId("meanings").innerHTML = foot;
  keepInSight(box);
  if (wasAtEnd) showLastColumn(box);
}

// ---- what is asked for

/** @param {number} by */
function step(by) {
  const all = scriptNow().lines.length;
  const count = Math.min(Math.max(Math.min(standing.at ?? all, all) + by, 0), all);
  standing = { ...standing, at: count === all ? null : count, row: null };
  show();
}

function runAll() {
  standing = { ...standing, at: null, row: null };
  show();
}

/** @param {string} name @param {string} text @param {string} watched @param {number | null} at */
function take(name, text, watched, at) {
  field.value = text;
  watchedField.value = watched;
  choice.value = examples.some((it) => it.name === name) ? name : "";
  standing = { name, at, row: null };
  byId("editor").scrollTop = 0;
  show();
}

/**
 * Takes an example, or with no name the script that was typed.
 * @param {string} name
 */
function takeExample(name) {
  const found = examples.find((it) => it.name === name);
  if (found) take(found.name, found.text, "", null);
  else take(OWN_NAME, own.text, own.watched, null);
}

/** Takes the script of the link, if the address has one. */
function takeLink() {
  try {
    const linked = readFragment(location.hash);
    if (!linked) return false;
    own = { text: linked.text, watched: linked.watched };
    take(OWN_NAME, linked.text, linked.watched, linked.at);
    say("The script of the link stands here.");
    return true;
  } catch (error) {
    if (!(error instanceof SpoiltLink)) throw error;
    say("The link is spoilt: it holds no whole script. Ask for it anew; an example stands here.", true);
    return false;
  }
}

async function share() {
  history.replaceState(null, "", `#${fragmentOf({ text: field.value, watched: watchedField.value.trim(), at: standing.at })}`);
  const long = `it has ${counted(location.href.length, "letter")}`;
  try {
    await navigator.clipboard.writeText(location.href);
    say(`The link is copied, and stands in the address line; ${long}.`);
  } catch {
    say(`The link stands in the address line: copy it from there; ${long}.`);
  }
}

function save() {
  const link = document.createElement("a");
  link.href = URL.createObjectURL(new Blob([field.value], { type: "text/plain" }));
  link.download = `${standing.name}.script`;
  link.click();
  setTimeout(() => URL.revokeObjectURL(link.href), 60000);
  say(`Saved as ${link.download}: run it by ./mt run ${scriptNow().watchers.join(" ")} < ${link.download}`.replace("run  <", "run <"));
}

/** The row at the caret is told. */
function tellCaret() {
  if (document.activeElement !== field) return;
  const row = field.value.slice(0, field.selectionStart).split("\n").length - 1;
  if (row === standing.row) return;
  standing = { ...standing, row };
  tellRow();
}

function tellRow() {
  const script = scriptNow();
  const answers = byId("problem").textContent ? [] : answersOrProblem(script, Math.min(standing.at ?? script.lines.length, script.lines.length));
  showLine(field.value, script, answers);
}

/** @param {KeyboardEvent} event */
function pressed(event) {
  const isRun = event.key === "Enter" && (event.ctrlKey || event.metaKey);
  const by = { Period: 1, Comma: -1 }[event.code] ?? 0;
  if (isRun) runAll();
  else if (event.altKey && by) step(by);
  else return;
  event.preventDefault();
}

/** @param {MouseEvent} event */
function clicked(event) {
  const row = event.target instanceof Element ? event.target.closest("li") : null;
  if (!row) return;
  standing = { ...standing, row: Number(row.dataset.row) };
  tellRow();
}

/** What is typed is a script of its own. */
function typed() {
  own = { text: field.value, watched: watchedField.value };
  standing = { ...standing, name: OWN_NAME };
  choice.value = "";
  say("");
  show();
}

function listen() {
  field.addEventListener("input", typed);
  watchedField.addEventListener("input", typed);
  slider.addEventListener("input", () => {
    standing = { ...standing, at: slider.value === slider.max ? null : Number(slider.value), row: null };
    show();
  });
  choice.addEventListener("change", () => takeExample(choice.value));
  button("all").addEventListener("click", runAll);
  button("on").addEventListener("click", () => step(1));
  button("back").addEventListener("click", () => step(-1));
  button("share").addEventListener("click", share);
  button("save").addEventListener("click", save);
  byId("rows").addEventListener("click", clicked);
  byId("words").addEventListener("toggle", showTables);
  document.addEventListener("selectionchange", tellCaret);
  document.addEventListener("keydown", pressed);
  window.addEventListener("hashchange", takeLink);
  window.addEventListener("resize", () => drawn && frameWidth !== byId("picture").clientWidth && frame(""));
}

// ---- the beginning

function disableRuns() {
  for (const name of ["all", "on", "back", "position"]) button(name).disabled = true;
}

/** The module that stands in the page; null, with a word why, where the browser can't run it. */
async function moduleOrNone() {
  try {
    return await loadedModule(Uint8Array.from(atob(byId("module").textContent ?? ""), (it) => it.charCodeAt(0)));
  } catch (error) {
    byId("unable").hidden = false;
    byId("why").textContent = error instanceof Error ? error.message : String(error);
    return null;
  }
}

async function begin() {
  module = await moduleOrNone();
  const version = module && versionOf(module);
  byId("version").textContent = version ? ` Version ${version}.` : "";
  if (!module) disableRuns();
  listen();
  if (!takeLink()) takeExample(FIRST_EXAMPLE);
  document.documentElement.dataset.ready = "";
}

await begin();
