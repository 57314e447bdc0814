// Writes the segments of a text between its breaks, as `lbk segment` does: `S start end kind rule` for each.
//
//     node breaks.mjs [PROFILE] < TEXT
import { readFileSync } from "node:fs";
import { breaks, load } from "lbk";

const KINDS = { may: "May", must: "Must" };

await load();
const profile = process.argv[2] === "2" ? 2 : 1;
let start = 0;
for (const { at, kind, rule } of breaks(readFileSync(0), { profile })) {
  console.log("S", start, at, KINDS[kind], rule);
  start = at;
}
