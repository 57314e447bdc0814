// The page's results for a text paragraph by paragraph, compared with those for the whole text. LBK_PAGE is a folder
// with the page's modules, LBK_PACKAGE one with the package.
import assert from "node:assert/strict";
import test from "node:test";
import { pathToFileURL } from "node:url";

const load = (folder, name) => import(new URL(name, pathToFileURL(`${process.env[folder]}/`)));
const lbk = await load("LBK_PACKAGE", "lbk.js");
const { DecidedText } = await load("LBK_PAGE", "decided.js");
const { headLength, lineStarts } = await load("LBK_PAGE", "lines.js");
const { passageAt } = await load("LBK_PAGE", "passage.js");
const { signPlaces } = await load("LBK_PAGE", "places.js");

const table = await lbk.load();
const PIECES = [
  "a", "b ", " ", "\n", "\r", "\r\n", "\u2028", "\u0085", "\v", "«", "\u0301", "日", "1", ",", "(", "😀", "\u200d", "🇫🇷",
    "\ud800", "\udc00",
];

/** Numbers from 0 to below a most one, the same in each run. */
function draws(seed) {
  return (most) => {
    seed = (Math.imul(seed, 1664525) + 1013904223) >>> 0;
    return Math.floor((seed / 2 ** 32) * most);
  };
}

function madeText(draw, most) {
  return Array.from({ length: draw(most) }, () => PIECES[draw(PIECES.length)]).join("");
}

function shown(positions) {
  return positions.map(({ at, kind, rule }) => `${at} ${kind} ${rule}`);
}

/** All positions of a decided text, by its paragraphs. */
function allOf(decided) {
  return decided.paragraphs.flatMap((paragraph, index) => {
    const found = decided.positionsIn(index, 0, paragraph.length);
    return found.map((it) => ({ ...it, at: decided.startOf(index) + it.at }));
  });
}

test("edits leave what is decided of the whole text", () => {
  const draw = draws(57);
  for (let k = 0; k < 3000; k++) {
    const profile = 1 + draw(2);
    const decided = new DecidedText(table);
    decided.set(madeText(draw, 12), profile);
    allOf(decided);
    for (let n = 0; n < 4; n++) {
      const from = draw(decided.text.length + 1);
      const to = from + draw(4);
      decided.edit(decided.text.slice(0, from) + madeText(draw, 4) + decided.text.slice(to));
      const wanted = shown([...table.positions(decided.text, { profile })]);
      assert.deepEqual(shown(allOf(decided)), wanted, JSON.stringify(decided.text));
    }
  }
});

test("an edit decides the paragraphs that it touches, and keeps the others", () => {
  const decided = new DecidedText(table);
  decided.set("some words\n".repeat(10_000), 1);
  const before = decided.paragraphs;
  const edited = decided.text.slice(0, 55_005) + "x" + decided.text.slice(55_005);
  assert.equal(decided.edit(edited), 1);
  assert.deepEqual(decided.paragraphs.filter((it) => !before.includes(it)).map(({ length }) => length), [12]);
});

test("each position is found by its place, and from the ones beside it", () => {
  const draw = draws(14);
  for (let k = 0; k < 500; k++) {
    const decided = new DecidedText(table);
    decided.set(madeText(draw, 12), 1);
    const all = [...table.positions(decided.text)];
    all.forEach((it, n) => {
      assert.deepEqual(decided.positionAt(it.at), it);
      assert.deepEqual(decided.next(it.at), all[n + 1]);
      assert.deepEqual(decided.previous(it.at), all[n - 1]);
    });
  }
});

test("a passage has the breaks of its part of the text", () => {
  const text = `${"word ".repeat(1000)}\nshort\n${"x".repeat(5000)}\nthe end`;
  const decided = new DecidedText(table);
  decided.set(text, 1);
  const breaks = new Set([...table.breaks(text)].map(({ at }) => at));
  for (const place of [0, 1999, 2001, 4999, 5003, 6000, 9000, text.length]) {
    const { text: part, offset, paragraphs } = passageAt(decided, place);
    assert.equal(part, text.slice(offset, offset + part.length));
    assert.equal(paragraphs.map((it) => it.text).join(""), part);
    let start = offset;
    for (const { text: paragraph, ends } of paragraphs) {
      for (const it of ends.slice(0, -1)) assert.ok(breaks.has(start + it));
      assert.equal(ends.at(-1), paragraph.length);
      start += paragraph.length;
    }
  }
});

test("white space at the end of a line counts for no width", () => {
  assert.deepEqual(["ab  ", "ab\t", "ab\u3000", " a", "a\u00a0", "a\u00a0 ", "  ", "ab \r\n", "\n"].map(headLength),
    [2, 2, 2, 2, 2, 2, 0, 2, 0]);
  const fits = (room) => (piece) => piece.length <= room;
  assert.deepEqual(lineStarts("aa bb cc", [3, 6, 8], fits(5)), [0, 2]);
  assert.deepEqual(lineStarts("aa bb cc", [3, 6, 8], fits(4)), [0, 1, 2]);
  assert.deepEqual(lineStarts("aaaaaa b c d", [7, 9, 11, 12], fits(3)), [0, 1, 3]);
});

/** Boxes of ten pixels from left to right in the order of some letters, given for each letter of a text. */
function boxesOf(text, visual) {
  return [...text].map((it) => ({ left: visual.indexOf(it) * 10, right: visual.indexOf(it) * 10 + 10, top: 0,
    bottom: 20, height: 20 }));
}

test("signs stand before their letters in either direction, no two in one place", () => {
  const xs = (text, visual, base) => signPlaces(boxesOf(text, visual), base).map(({ x }) => x);
  assert.deepEqual(xs("abc", "abc", "ltr"), [0, 10, 20, 30]);
  assert.deepEqual(xs("ABC", "CBA", "rtl"), [30, 20, 10, 0]);
  // (numbers go to the right between letters that go to the left)
  assert.deepEqual(xs("AB123CD", "DC123BA", "rtl"), [70, 60, 20, 30, 40, 50, 10, 0]);
  assert.deepEqual(xs("aABCb", "aCBAb", "ltr"), [0, 40, 30, 20, 10, 50]);
  for (const [text, visual] of [["w AB-123_x", "w 123-BA_x"], ["ABC x", "CBA x"], ["a ABC", "a CBA"],
    ["1A2B3", "1A2B3"]]) {
    const found = xs(text, visual, "ltr");
    assert.equal(new Set(found).size, found.length, `${text}: ${found}`);
  }
});
