/** The marks that a drawing is made of, as text of SVG. */

/**
 * A side of a move in its strong colour with that of words on it, and in its pale one.
 * @typedef {{strong: string, words: string, pale: string}} Side
 *
 * Something that is told where it begins, and tells where it ends.
 * @typedef {(top: number) => {svg: string, bottom: number}} Part
 *
 * @typedef {Record<string, string | number | null>} Attributes
 */

export const INK = "#22272e";
export const SOFT = "#5f6873";
export const RULE = "#d9dee4";
export const RED = "#b3261e";
export const TEAL = "#0f6f75";
export const GREEN = "#1f7145";
export const BROWN = "#7a5c10";

/**
 * The strong colours differ in brightness too.
 * @type {{source: Side, target: Side, other: Side}}
 */
export const SIDES = {
  source: { strong: "#1f5fa8", words: "#ffffff", pale: "#dbe8f6" },
  target: { strong: "#f2b04a", words: INK, pale: "#fdf0d8" },
  other: { strong: "#6c7682", words: "#ffffff", pale: "#eceff2" },
};

/** The size of small words, and how far the drawing keeps from its edges. */
export const SMALL = 10.5;
export const MARGIN = 14;

/**
 * The attributes of words that stay readable on whatever lies below them.
 * @type {Attributes}
 */
export const HALO = { "paint-order": "stroke", stroke: "#ffffff", "stroke-width": 3, "stroke-linejoin": "round" };

// what XML can't have, not even escaped
const NOT_IN_XML = /[^\t\n\r\u0020-\ud7ff\ue000-\ufffd\u{10000}-\u{10ffff}]/gu;
/** @type {Record<string, string>} */
const ENTITIES = { "&": "&amp;", "<": "&lt;", ">": "&gt;", '"': "&quot;", "'": "&#39;" };

/**
 * A text as content, or as an attribute's value.
 * @param {string} text
 */
export function escaped(text) {
  return text.replace(NOT_IN_XML, "\ufffd").replace(/[&<>"']/g, (mark) => ENTITIES[mark]);
}

/**
 * A number with one digit behind its point at most.
 * @param {number} value
 */
export function short(value) {
  return String(Math.round(value * 10) / 10);
}

/**
 * An element. Attributes that are null are left out; the contents are SVG already.
 * @param {string} name
 * @param {Attributes} attributes
 * @param {...string} contents
 */
export function element(name, attributes, ...contents) {
  const given = Object.entries(attributes).filter(([, value]) => value !== null);
  const written = given.map(([key, value]) => ` ${key}="${typeof value === "number" ? short(value) : escaped(String(value))}"`);
  const open = `<${name}${written.join("")}`;
  return contents.length ? `${open}>${contents.join("")}</${name}>` : `${open}/>`;
}

/**
 * A rectangle, with further attributes.
 * @param {number} x
 * @param {number} y
 * @param {number} width
 * @param {number} height
 * @param {string} fill
 * @param {Attributes} [more]
 */
export function rect(x, y, width, height, fill, more = {}) {
  return element("rect", { x, y, width: Math.max(width, 0), height, fill, ...more });
}

/**
 * A line, with further attributes.
 * @param {number} x1
 * @param {number} y1
 * @param {number} x2
 * @param {number} y2
 * @param {string} stroke
 * @param {number} [width]
 * @param {Attributes} [more]
 */
export function line(x1, y1, x2, y2, stroke, width = 1, more = {}) {
  return element("line", { x1, y1, x2, y2, stroke, "stroke-width": width, ...more });
}

/**
 * Words, 12 pixels high and in ink where `more` says nothing else; nothing of an empty text.
 * @param {number} x
 * @param {number} y
 * @param {string} text
 * @param {Attributes} [more]
 */
export function words(x, y, text, more = {}) {
  return text && element("text", { x, y, "font-size": 12, fill: INK, ...more }, escaped(text));
}

/**
 * The mark of what was refused.
 * @param {number} x
 * @param {number} y
 * @param {number} reach
 */
export function cross(x, y, reach) {
  const [left, right, above, below] = [x - reach, x + reach, y - reach, y + reach].map(short);
  const looks = { d: `M${left} ${above}L${right} ${below}M${left} ${below}L${right} ${above}`, "stroke-linecap": "round", fill: "none" };
  const ground = element("path", { ...looks, stroke: "#ffffff", "stroke-width": 4.8 });
  return element("g", { class: "refused" }, ground, element("path", { ...looks, stroke: RED, "stroke-width": 2.6 }));
}

/**
 * The mark of a client's line that was answered: filled for a write, hollow for a read.
 * @param {number} x
 * @param {number} y
 * @param {number} reach
 * @param {boolean} isWrite
 */
export function dot(x, y, reach, isWrite) {
  const [fill, stroke] = isWrite ? [INK, "#ffffff"] : ["#ffffff", INK];
  return element("circle", { class: isWrite ? "write" : "read", cx: x, cy: y, r: reach, fill, stroke, "stroke-width": 1.6 });
}

/**
 * How wide a text is at most, in fonts that are common.
 * @param {string} text
 * @param {number} [size]
 * @param {boolean} [isBold]
 */
export function widthOf(text, size = 12, isBold = false) {
  return text.length * size * (isBold ? 0.72 : 0.58);
}

/**
 * The first of some texts that fits into a room; undefined if none does.
 * @param {string[]} texts
 * @param {number} room
 * @param {number} [size]
 * @param {boolean} [isBold]
 */
export function firstThatFits(texts, room, size = 12, isBold = false) {
  return texts.find((text) => widthOf(text, size, isBold) <= room);
}

/**
 * A text cut to so many signs at most.
 * @param {string} text
 * @param {number} most
 */
export function cut(text, most) {
  return text.length <= most ? text : `${text.slice(0, most - 1)}…`;
}

/**
 * A text in lines of so many signs at most, broken between words; what doesn't fit into so many lines is cut.
 * @param {string} text
 * @param {number} most
 * @param {number} lines
 */
export function wrapped(text, most, lines) {
  const found = [""];
  for (const word of text.split(" ")) {
    const last = found.length - 1;
    const longer = found[last] ? `${found[last]} ${word}` : word;
    if (longer.length <= most) found[last] = longer;
    else found.push(word);
  }
  const kept = found.slice(0, lines).map((it) => cut(it, most));
  if (found.length > lines) kept[lines - 1] = `${kept[lines - 1].slice(0, most - 1)}…`;
  return kept;
}

/**
 * Parts one below the other.
 * @param {number} top
 * @param {Part[]} parts
 */
export function stacked(top, parts) {
  let bottom = top;
  const drawn = parts.map((part) => {
    const { svg, bottom: end } = part(bottom);
    bottom = end;
    return svg;
  });
  return { svg: drawn.join(""), bottom };
}
