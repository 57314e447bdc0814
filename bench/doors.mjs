// Measures the calls of the package for JavaScript over texts, for bench/doors:
//
//     node bench/doors.mjs TABLE TEXT..
//
// It prints a line of JSON for each text: millions of bytes a second of processor time, the best of several runs.
import { readFileSync } from "node:fs";
import { Chunker } from "../packages/javascript/chunks.js";
import { Table } from "../packages/javascript/lbk.js";
import { Words } from "../packages/javascript/words.js";

const ROUNDS = 5;

function runThrough(iterator) {
  let count = 0;
  for (const _ of iterator) count++;
  return count;
}

function speedOf(size, call) {
  let least = Infinity;
  for (let k = 0; k < ROUNDS; k++) {
    const before = process.cpuUsage();
    call();
    const { user, system } = process.cpuUsage(before);
    least = Math.min(least, user + system);
  }
  return size / least;
}

const [saved, ...names] = process.argv.slice(2);
const table = await Table.fromBytes(saved);
const words = await Words.load();
const chunker = new Chunker(table, words);
for (const name of names) {
  const bytes = new Uint8Array(readFileSync(name));
  const text = new TextDecoder().decode(bytes);
  const speed = (call) => speedOf(bytes.length, call);
  const objects = (given) => ({
    breaks: speed(() => runThrough(table.breaks(given))),
    chunks: speed(() => runThrough(chunker.chunks(given))),
    overlap: speed(() => runThrough(chunker.chunks(given, { overlap: 100 }))),
  });
  const found = {
    columns: { breaks: speed(() => table.breakColumns(bytes)), words: speed(() => words.wordColumns(bytes)) },
    bytes: objects(bytes),
    // (words are found in strings alone)
    string: { ...objects(text), words: speed(() => runThrough(words.words(text))) },
  };
  console.log(JSON.stringify(found));
}
