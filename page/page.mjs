/** What a page with the facts inside shows: the picture, and the same in words. */

import { picture } from "./picture.mjs";
import { accountTable, linesTable } from "./tables.mjs";

/**
 * The element of a name; there is one, by page.html.
 * @param {string} name
 */
function named(name) {
  return /** @type {HTMLElement} */ (document.getElementById(name));
}

const told = JSON.parse(named("facts").textContent ?? "");
named("picture").innerHTML = picture(told);
named("account").innerHTML = accountTable(told);
named("lines").innerHTML = linesTable(told);
