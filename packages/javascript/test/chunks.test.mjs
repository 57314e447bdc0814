// Chunks, compared with a literal form of their definition.
import assert from "node:assert/strict";
import { test } from "node:test";
import { Chunker } from "../chunks.js";
import { load } from "../lbk.js";
import { Words } from "../words.js";

const table = await load();
const words = await Words.load();
const chunker = new Chunker(table, words);
const WORDS = ["a", "bc ", "word ", "カタカナ", "日本", "語。", "can't ", "x-y ", "1,234 ", "“q” ", "é", "http://a.b/c "];
const PIECES = [...WORDS, "\n", "\r\n", " ", "\n\n", "😀", "\ud800"];

/** Numbers that seem random (a linear congruential generator). */
let seed = 7n;
function below(bound) {
  seed = BigInt.asUintN(64, seed * 6364136223846793005n + 1442695040888963407n);
  return Number(seed >> 33n) % bound;
}

/** The breaks outside words, with how many words are before each. */
function cutsOf(text, profile) {
  const { start, end } = words.wordColumns(text);
  const breaks = [...table.breaks(text, { profile })].filter(({ at }) => !start.some((from, k) => from < at
    && at < end[k]));
  return breaks.map((it) => ({ ...it, words: end.filter((place) => place <= it.at).length }));
}

/** The chunks of a text with these cuts, by their definition. */
function defined(cuts, { most, words: limit = Infinity, least, overlap }) {
  const found = [];
  let [start, told] = [{ at: 0, words: 0 }, 0];
  const fits = (from, to) => to.at - from.at <= most && to.words - from.words <= limit;
  for (;;) {
    const ahead = cuts.filter((it) => it.at > told);
    if (ahead.length === 0) return found;
    const fitting = ahead.filter((it) => fits(start, it));
    const early = fitting.filter((it) => it.kind === "must" && it.at - told >= least);
    const end = fitting.length === 0 ? ahead[0] : fitting.length === ahead.length ? ahead.at(-1)
      : (early.at(-1) ?? fitting.at(-1));
    const { kind, rule } = end;
    found.push({ start: start.at, end: end.at, words: end.words - start.words, kind, rule, alone: !fits(start, end) });
    const next = cuts.find((it) => it.at > end.at);
    const mayBegin = ({ at }) => at > start.at && at < end.at && end.at - at <= overlap && 2 * (end.at - at) <= end.at
      - start.at;
    [start, told] = [(next && cuts.find((it) => mayBegin(it) && fits(it, next))) ?? end, end.at];
  }
}

test("chunks are those of the definition", () => {
  for (let round = 0; round < 4000; round++) {
    const string = Array.from({ length: [0, 1, 3, 10, 40][below(5)] }, () => PIECES[below(PIECES.length)]).join("");
    const text = below(2) ? string : new TextEncoder().encode(string).subarray(below(3));
    const most = [1, 2, 3, 8, 20, 50, 200][below(7)];
    const limits = { most, words: [undefined, 1, 3, 9][below(4)], least: below(most + 1),
      overlap: below(Math.floor(most / 2) + 1) };
    const profile = 1 + below(2);
    const found = [...chunker.chunks(text, { ...limits, profile })];
    const wanted = defined(cutsOf(text, profile), limits);
    assert.deepEqual(found.map(({ text: _, ...others }) => others), wanted, JSON.stringify([string, limits]));
    for (const it of found) assert.deepEqual(it.text, text.slice(it.start, it.end));
  }
});

test("the chunks of a string", () => {
  const text = "one twó. three\nfour five six";
  const shown = (options) => [...chunker.chunks(text, options)].map((it) => it.text);
  assert.deepEqual(shown({ most: 12, least: 12, overlap: 5 }), ["one twó. ", "three\nfour ", "four five ", "five six"]);
  assert.deepEqual(shown({ most: 12 }), ["one twó. ", "three\n", "four five ", "six"]);
  assert.deepEqual(shown({}), [text]);
  assert.deepEqual([...chunker.chunks("")], []);
  assert.equal([...chunker.chunks("abcdef", { most: 3 })][0].alone, true);
});

test("wrong limits are named in the call", () => {
  const wrong = { most: [0, -1, 1.5, "3", null], words: [0, 1.5], least: [-1, 11, NaN], overlap: [-1, 6, 0.5] };
  for (const [name, numbers] of Object.entries(wrong)) {
    for (const number of numbers) {
      const message = new RegExp(`^${name} must be .*, not ${number}$`);
      assert.throws(() => chunker.chunks("a b", { most: 10, [name]: number }), { name: "RangeError", message });
    }
  }
  assert.throws(() => chunker.chunks("a b", { profile: 3 }), RangeError);
  for (const text of [null, undefined, 3, ["a"]]) assert.throws(() => chunker.chunks(text), TypeError);
  for (const parts of [[], [table], [words, table]]) assert.throws(() => new Chunker(...parts), TypeError);
});

test("the table of the folder that UNICODE_DATA names", async () => {
  process.env.UNICODE_DATA = process.env.LBK_UNICODE;
  assert.deepEqual([...(await Chunker.load()).chunks("one two", { most: 4 })].map((it) => it.text), ["one ", "two"]);
});
