// The example that lays out lines in a canvas, over one that counts ten pixels for each unit.
import assert from "node:assert/strict";
import { test } from "node:test";
import { draw, lines } from "../../../examples/canvas.mjs";
import { breaks, load } from "../lbk.js";

await load();

/** A context that notes what it draws. */
function context() {
  const drawn = [];
  const measureText = (text) => ({ width: 10 * text.length });
  return { drawn, measureText, fillText: (...words) => drawn.push(words) };
}

const laidOut = (text, units) => [...lines(context(), text, breaks(text), 10 * units)].map((it) => it.text);

test("lines end at breaks, and as late as they fit", () => {
  assert.deepEqual(laidOut("Where a line may break.", 12), ["Where a line", "may break."]);
  assert.deepEqual(laidOut("Where a line may break.", 11), ["Where a", "line may", "break."]);
  assert.deepEqual(laidOut("改行の位置。", 3), ["改行の", "位置。"]);
  assert.deepEqual(laidOut("改行の位置。", 2), ["改行", "の位", "置。"]);
});

test("required breaks end lines, also blank ones", () => {
  assert.deepEqual(laidOut("a\n\nb  \r\nc", 80), ["a", "", "b", "c"]);
  assert.deepEqual(laidOut("", 80), []);
});

test("spaces hang, and what has no break stays whole", () => {
  assert.deepEqual(laidOut("ab     cd", 2), ["ab", "cd"]);
  assert.deepEqual(laidOut("a unbreakable b", 4), ["a", "unbreakable", "b"]);
  assert.deepEqual(laidOut("a\u00a0b c", 3), ["a\u00a0b", "c"]);
});

test("it draws each line below the one before, and says where each starts", () => {
  const canvas = context();
  const found = draw(canvas, "one two\nthree", breaks("one two\nthree"), 40, { left: 5, top: 7, height: 9 });
  assert.deepEqual(found.map((it) => it.start), [0, 4, 8]);
  assert.deepEqual(canvas.drawn, [["one", 5, 7], ["two", 5, 16], ["three", 5, 25]]);
  assert.equal(canvas.textBaseline, "top");
});
