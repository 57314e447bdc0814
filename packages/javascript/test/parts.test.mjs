// Streams and cuts. LBK_TABLE names a table in which ~ is an ideograph.
import assert from "node:assert/strict";
import { test } from "node:test";
import { Table, load } from "../lbk.js";
import { Stream, cut, cutBefore } from "../parts.js";

const table = await load();
const LINE_ENDS = ["\n", "\r", "\r\n", "\u2028", "\u0085"];
const PIECES = [...LINE_ENDS, "a", "b ", "«", "»", "\u0301", "日", "、", "😀", "\u{1F1EB}", "\ud800", "\udc00", "1,2 ",
  " "];

/** Numbers that seem random (a linear congruential generator). */
let seed = 5n;
function below(bound) {
  seed = BigInt.asUintN(64, seed * 6364136223846793005n + 1442695040888963407n);
  return Number(seed >> 33n) % bound;
}

function randomString(most) {
  return Array.from({ length: below(most) }, () => PIECES[below(PIECES.length)]).join("");
}

/** A string or bytes, some of them ill-formed. */
function randomText(most) {
  const string = randomString(most);
  if (below(2)) return string;
  const bytes = new TextEncoder().encode(string);
  for (let k = below(4); k > 0 && bytes.length > 0; k--) bytes[below(bytes.length)] = [0x80, 0xe4, 0xf0, 0xff,
    0xe2][below(5)];
  return bytes;
}

test("however a text is cut into pieces, its breaks are those of the whole", () => {
  for (let round = 0; round < 4000; round++) {
    const [text, profile, most] = [randomText(30), 1 + below(2), 1 + below(9)];
    const stream = new Stream({ profile });
    const found = [];
    for (let from = 0; from < text.length; ) {
      const to = from + below(most + 1);
      found.push(...stream.feed(text.slice(from, to)));
      from = to;
    }
    found.push(...stream.finish());
    assert.deepEqual(found, [...table.breaks(text, { profile })], JSON.stringify(text));
    assert.throws(() => stream.feed(text), /^Error: the stream has ended$/);
    assert.throws(() => stream.finish(), /^Error: the stream has ended$/);
  }
});

test("a break comes with the piece that settles it", () => {
  const stream = new Stream();
  assert.deepEqual(stream.feed("one t").map((it) => it.at), [4]);
  assert.deepEqual(stream.feed("wo\nth").map((it) => it.at), [8]);
  assert.deepEqual(stream.feed("ree").map((it) => it.at), []);
  assert.deepEqual(stream.finish(), [{ at: 13, kind: "must", rule: "3" }]);
});

test("two streams of a table, and other calls, are independent", () => {
  const [one, two] = [new Stream(), new Stream({ profile: 2 })];
  const found = [[], []];
  const text = "a « b » c\nd ".repeat(300);
  for (let from = 0; from < text.length; from += 7) {
    found[0].push(...one.feed(text.slice(from, from + 7)));
    table.breakColumns("é x");
    found[1].push(...two.feed(text.slice(from, from + 7)));
  }
  assert.deepEqual([...found[0], ...one.finish()], [...table.breaks(text)]);
  assert.deepEqual([...found[1], ...two.finish()], [...table.breaks(text, { profile: 2 })]);
});

test("pieces larger than the module's window", () => {
  const text = `${"ab é ".repeat(150_000)}${"x".repeat(600_000)} y`;
  const stream = new Stream();
  let found = [];
  for (let from = 0; from < text.length; from += 500_001) found =
    found.concat(stream.feed(text.slice(from, from + 500_001)));
  assert.deepEqual(found.concat(stream.finish()), [...table.breaks(text)]);
});

test("a stream and cuts by a table of one's own", async () => {
  const other = await Table.fromBytes(process.env.LBK_TABLE);
  const stream = new Stream({ table: other });
  assert.deepEqual([...stream.feed("a~"), ...stream.finish("")].map((it) => it.at), [1, 2]);
  assert.deepEqual([cut("a\rb", 1), cut("a\rb", 1, other)], [2, 2]);
  assert.deepEqual([cut("a\vb", 1), cut("a\vb", 1, other), cutBefore("a\vb", 2, other)], [2, 3, 0]);
});

test("what is no piece is refused", () => {
  const stream = new Stream();
  for (const piece of [null, undefined, 3, ["a"]]) assert.throws(() => stream.feed(piece), TypeError);
  stream.feed("a");
  assert.throws(() => stream.feed(new Uint8Array(1)), TypeError);
  assert.throws(() => new Stream({ profile: 3 }), RangeError);
  for (const wrong of [null, {}, "table"]) assert.throws(() => new Stream({ table: wrong }), TypeError);
});

test("a stream without a piece has no breaks, and ends", () => {
  const stream = new Stream();
  assert.deepEqual(stream.finish(), []);
  assert.throws(() => stream.feed("a"), /^Error: the stream has ended$/);
});

test("cuts are where a line must end", () => {
  for (let round = 0; round < 600; round++) {
    const text = randomText(30);
    const ends = [...table.breaks(text)].filter((it) => it.kind === "must" && it.at < text.length).map((it) => it.at);
    for (let at = 0; at <= text.length + 2; at++) {
      const all = [0, ...ends, text.length];
      assert.equal(cut(text, at), all.find((it) => it >= at) ?? text.length, `${JSON.stringify(text)} ${at}`);
      const before = at >= text.length ? text.length : all.findLast((it) => it <= at);
      assert.equal(cutBefore(text, at), before, `${JSON.stringify(text)} ${at}`);
    }
  }
});

test("cuts far away", () => {
  const text = `a\n${"é ".repeat(50_000)}\nb`;
  for (const one of [text, new TextEncoder().encode(text)]) {
    const last = one.length - 1;
    assert.deepEqual([cut(one, 3), cut(one, last)], [last, last]);
    assert.deepEqual([cutBefore(one, last - 3), cutBefore(one, 1)], [2, 0]);
  }
  for (const at of [-1, 0.5, NaN, "1", undefined]) {
    assert.throws(() => cut("a b", at), RangeError);
    assert.throws(() => cutBefore("a b", at), RangeError);
  }
  assert.throws(() => cut(null, 0), TypeError);
});
