// The package in Node. LBK_TABLE names a table in which ~ is an ideograph, and LBK_PACKED its packed form. By the library
// for C there are LBK_CASES, JSON rows of "SHA-256 of what its example writes, call, profile, file of the text", and
// LBK_STRINGS, JSON rows of "string, profile, positions". scripts/page makes all.
import assert from "node:assert/strict";
import { createHash } from "node:crypto";
import { readFileSync } from "node:fs";
import { test } from "node:test";
import { runInNewContext } from "node:vm";
import * as lbk from "../lbk.js";
import { Table, load } from "../lbk.js";
import { Words } from "../words.js";

const saved = readFileSync(process.env.LBK_TABLE);
const packed = readFileSync(process.env.LBK_PACKED);
assert.throws(() => lbk.breaks("a b"), /^Error: the module is not loaded: await load\(\) first$/);
await assert.rejects(load("/absent"), { code: "ENOENT" });
const table = await load();
const words = await Words.load();
const cases = JSON.parse(readFileSync(process.env.LBK_CASES, "utf8"));

function digestOf(count, line) {
  const hash = createHash("sha256");
  for (let k = 0; k < count; k++) hash.update(line(k));
  return hash.digest("hex");
}

function digestOfPositions({ at, kind, rule }) {
  return digestOf(at.length, (k) => `${at[k]} ${kind[k]} ${table.ruleLabel(rule[k])}\n`);
}

function digestOfWords({ start, end }) {
  return digestOf(start.length, (k) => `W ${start[k]} ${end[k]}\n`);
}

for (const [digest, call, profile, file] of cases) {
  test(`${call}s of ${file}${profile && ` in profile ${profile}`}`, () => {
    const text = new Uint8Array(readFileSync(file));
    if (call === "word") assert.equal(digestOfWords(words.wordColumns(text)), digest);
    else assert.equal(digestOfPositions(table[`${call}Columns`](text, { profile: Number(profile) })), digest);
  });
}

test("the lines of the published test, and strings with lone surrogates", () => {
  const rows = JSON.parse(readFileSync(process.env.LBK_STRINGS, "utf8"));
  assert.ok(rows.length >= 10_000);
  for (const [text, profile, wanted] of rows) {
    const found = [...table.positions(text, { profile })];
    assert.equal(found.map(({ at, kind, rule }) => `${at} ${kind} ${rule}`).join(", "), wanted, JSON.stringify(text));
    const breaks = found.filter((it) => it.kind !== "no");
    assert.deepEqual([...table.breaks(text, { profile })], breaks, JSON.stringify(text));
    // (the same string after a character that is not ASCII goes another way)
    const after = [...table.breakColumns(`é\n${text}`, { profile }).at].slice(1);
    assert.deepEqual(after, breaks.map((it) => it.at + 2));
  }
});

/** Sees that the breaks of fifty copies of a text, which ends with its last line, are fifty times those of one. */
function seeFiftyCopies(text, copies) {
  const once = table.breakColumns(text);
  const found = table.breakColumns(copies);
  const count = once.at.length;
  assert.equal(found.at.length, 50 * count);
  for (let copy = 0; copy < 50; copy++) {
    for (let k = 0; k < count; k++) {
      const place = copy * count + k;
      const isSame = found.at[place] === copy * text.length + once.at[k] && found.kind[place] === once.kind[k];
      // (the end of a text is one by another rule)
      if (!isSame || (k < count - 1 && found.rule[place] !== once.rule[k])) assert.fail(`break ${place}`);
    }
  }
}

test("50 MB in pieces have the breaks that their parts have, in memory that does not grow", () => {
  const bytes = new Uint8Array(readFileSync(cases.find((row) => row[3].endsWith("latin"))[3]));
  const before = table.memorySize;
  seeFiftyCopies(bytes, new Uint8Array(Buffer.concat(Array(50).fill(bytes))));
  assert.equal(table.memorySize, before);
  const text = new TextDecoder().decode(bytes);
  table.breakColumns("é".repeat(200_000));
  const ofStrings = table.memorySize;
  seeFiftyCopies(text, text.repeat(50));
  assert.equal(table.memorySize, ofStrings);
});

test("arguments are looked at in the call, and not in the first step", () => {
  for (const call of ["breaks", "positions", "segments"]) {
    for (const text of [null, undefined, 3, ["a"]]) assert.throws(() => table[call](text), TypeError);
    assert.throws(() => table[call]("a", { profile: 3 }), RangeError);
  }
  assert.throws(() => words.words(null), TypeError);
});

test("the words of a string", () => {
  assert.deepEqual([...words.words("😀 naïve, 3.14")], [{ word: "naïve", at: 3 }, { word: "3.14", at: 10 }]);
  assert.deepEqual([...words.words("")], []);
  assert.equal([...words.words("one ".repeat(10_000))].length, 10_000);
  for (const text of [3, null, new Uint8Array(1)]) assert.throws(() => [...words.words(text)], TypeError);
  assert.throws(() => words.wordColumns({}), TypeError);
});

test("the functions are the calls of the one table that is loaded", async () => {
  assert.equal(await load(), table);
  const text = "a « b », 日本 😀\nc";
  for (const name of ["breaks", "positions", "segments", "breakColumns", "positionColumns"]) {
    for (const profile of [1, 2]) {
      const [found, wanted] = [lbk[name](text, { profile }), table[name](text, { profile })];
      assert.deepEqual(name.endsWith("Columns") ? found : [...found], name.endsWith("Columns") ? wanted : [...wanted]);
    }
    assert.throws(() => lbk[name](3), TypeError);
  }
  assert.deepEqual([lbk.classOf(0x65e5), lbk.ruleLabel(144), lbk.ruleText("18")],
    ["ID", "18", "A break is allowed after spaces."]);
});

test("the breaks of a string, in UTF-16 code units", () => {
  const found = [...table.breaks("😀 naïve\n")];
  assert.deepEqual(found, [
    { at: 3, kind: "may", rule: "18" },
    { at: 9, kind: "must", rule: "3" },
  ]);
});

test("the same places in bytes", () => {
  const bytes = new TextEncoder().encode("😀 naïve\n");
  assert.deepEqual([...table.breaks(bytes)].map((it) => it.at), [5, 12]);
});

test("positions are there also where no line breaks, and in an empty text", () => {
  assert.deepEqual([...table.positions("a b")].map((it) => `${it.at} ${it.kind} ${it.rule}`),
    ["0 no 2", "1 no 7", "2 may 18", "3 must 3"]);
  assert.deepEqual([...table.positions("")], [{ at: 0, kind: "no", rule: "2" }]);
  assert.deepEqual([...table.breaks("")], []);
});

test("segments are the text", () => {
  const text = "a-b \u{1F1EB}\u{1F1F7}\u{1F1E9} c\r\n「d」";
  assert.equal([...table.segments(text)].map((it) => it.segment).join(""), text);
});

test("a lone surrogate is U+FFFD at its place", () => {
  for (const text of ["\ud800", "a \udc00 b", "\udc00\ud800", "x\ud83d y"]) {
    const replaced = text.replaceAll(/[\ud800-\udfff]/g, "\ufffd");
    assert.deepEqual([...table.positions(text)], [...table.positions(replaced)]);
  }
});

test("the class of a code point, as rule LB1 resolves it", () => {
  const classes = { a: "AL", " ": "SP", "\n": "LF", "(": "OP", "«": "QU", "漢": "ID", "\u0301": "CM", "\u200d": "ZWJ",
    ก: "AL", ぁ: "NS", 가: "H2" };
  for (const [character, name] of Object.entries(classes)) assert.equal(table.classOf(character.codePointAt(0)), name);
  assert.equal(table.classOf(0xd800), "");
  assert.equal(table.classOf(0x10ffff), "AL");
  for (const wrong of [-1, 0x110000, 1.5, "a", undefined]) assert.throws(() => table.classOf(wrong), RangeError);
});

test("what a rule says, by its number and its label", () => {
  assert.equal(table.ruleText(144), "A break is allowed after spaces.");
  for (const { rule } of table.positions("a b")) assert.ok(table.ruleText(rule).endsWith("."), rule);
  for (const wrong of [0, 255, 256, -1, 1.5, "99", "", undefined]) assert.equal(table.ruleText(wrong), "");
});

test("the second profile", () => {
  const rules = (profile) => [...table.positions("a « b », c", { profile })].map((it) => it.rule).join(" ");
  assert.notEqual(rules(1), rules(2));
});

test("what is no text, and no profile, is refused by name", () => {
  for (const text of [3, null, undefined, {}, ["a"]]) {
    assert.throws(() => table.breakColumns(text), TypeError);
  }
  assert.throws(() => table.breakColumns("a", { profile: 3 }), RangeError);
  assert.throws(() => [...table.segments(new Uint8Array(1))], TypeError);
});

test("a table of one's own, saved or packed", async () => {
  for (const bytes of [saved, packed]) {
    const other = await Table.fromBytes(bytes);
    assert.deepEqual([other.classOf(0x7e), table.classOf(0x7e)], ["ID", "AL"]);
    assert.deepEqual([...other.breaks("a~b")].map((it) => it.at), [1, 2, 3]);
    assert.deepEqual([...lbk.breaks("a~b")].map((it) => it.at), [3]);
  }
});

test("a table that is not whole is refused", async () => {
  for (const whole of [saved, packed]) {
    for (const wrong of [whole.subarray(1), whole.subarray(0, -1), new Uint8Array(0), new Uint8Array(20)]) {
      await assert.rejects(Table.fromBytes(wrong), RangeError);
    }
  }
  const places = [saved.length >> 1, ...Array(8).keys()];
  for (const [whole, at] of places.flatMap((place) => [[saved, place], [packed, place % packed.length]])) {
    const damaged = new Uint8Array(whole);
    damaged[at] ^= 1;
    await assert.rejects(Table.fromBytes(damaged), RangeError, `byte ${at}`);
  }
});

test("pieces of a text give what the whole gives", () => {
  const few = "a « b »\u0301 c 😀 – ";
  for (const profile of [1, 2]) {
    for (const start of ["", "ascii ".repeat(50_000), `${"x".repeat(600_000)} `]) {
      const marked = start + few.repeat(10_000) + "»" + "\u0301".repeat(200_000) + " x" + few.repeat(10_000);
      for (const text of [marked, new TextEncoder().encode(marked)]) {
        const breaks = [...table.positions(text, { profile })].filter((it) => it.kind !== "no");
        assert.deepEqual([...table.breaks(text, { profile })], breaks);
      }
    }
  }
});

test("after the module stopped the table has a new instance", async () => {
  const { instantiate } = WebAssembly;
  const lbk_breaks = () => {
    throw new WebAssembly.RuntimeError("unreachable");
  };
  WebAssembly.instantiate = async (...words) => ({ exports: { ...(await instantiate(...words)).exports, lbk_breaks } });
  const broken = await Table.fromBytes(saved).finally(() => {
    WebAssembly.instantiate = instantiate;
  });
  assert.throws(() => broken.breakColumns("ab cd"), /stopped during a call/);
  assert.deepEqual([...broken.breaks("ab cd")], [...table.breaks("ab cd")]);
});

test("a text of another context is a text", () => {
  assert.deepEqual(table.breakColumns(runInNewContext("new Uint8Array([97, 32, 98])")).at, Uint32Array.of(2, 3));
});

test("a call after a long text is right", () => {
  const long = "word ".repeat(2_000_000);
  assert.equal(table.breakColumns(long).at.length, 2_000_000);
  assert.deepEqual([...table.breaks("ab cd")].map((it) => it.at), [3, 5]);
});
