/** Draws files of facts in node: `node page/draw.mjs FACTS SVG [FACTS SVG]..` */

import { readFileSync, writeFileSync } from "node:fs";
import { picture } from "./picture.mjs";

const paths = process.argv.slice(2);
if (paths.length === 0 || paths.length % 2) {
  console.error("node page/draw.mjs FACTS SVG [FACTS SVG]..");
  process.exit(2);
}
for (let place = 0; place < paths.length; place += 2) {
  try {
    const facts = JSON.parse(readFileSync(paths[place], "utf8"));
    writeFileSync(paths[place + 1], `${picture(facts)}\n`);
  } catch (error) {
    process.exitCode = 1;
    console.error(`${paths[place]}: ${error.message}`);
  }
}
