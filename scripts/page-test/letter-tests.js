/** Letters and signs of the page: their order in both directions, numbers, joined letters, and that no two signs are
 * in one place. */
import { EXAMPLES } from "/modules/examples.js";
import { change, equal, follow, matches, openPage, press, say, write } from "./harness.js";

const MIXED = [
  "word בית 123 x", "אבג abc 45 דה", "abc (אבג) def", "1 א 2 ב 3", "مرحبا 12-34 world 5", "a\u2067אב 12\u2069b",
    "بَب دار ١٬٢٣٤ %",
];

function boxes(page, selector) {
  return [...page.document.querySelectorAll(selector)].map((it) =>
    ({ it, at: Number(it.dataset.at), box: it.getBoundingClientRect() }));
}

/** The places of signs so near to another that pointing at one could hit the other. */
function crowded(found) {
  const isNear = (one, other) => Math.abs(one.left - other.left) < 20 && Math.abs(one.top - other.top) < 20;
  return found.filter(({ box }, k) => found.some((other, n) => n < k && isNear(box, other.box))).map(({ at }) => at);
}

/** Whether each is left or right of the one before, where both are in one row. */
function ways(found) {
  const rows = found.slice(1).map(({ box }, k) => [found[k].box, box]).filter(([one, other]) =>
    Math.abs(one.top - other.top) < 10);
  return [...new Set(rows.map(([one, other]) => (one.left < other.left ? "right" : "left")))];
}

async function tryDirections(page) {
  await follow(page, "בית ספר גדול");
  equal("positions of Hebrew go from right to left", ways(boxes(page, ".position")), ["left"]);
  equal("and so do its letters", ways(boxes(page, ".letter")), ["left"]);
  press(page, "Home");
  press(page, "ArrowLeft");
  press(page, "ArrowLeft");
  matches("where the arrow to the left goes on", page.find("detail").textContent, /“י”.*“ת”/);
  for (const [digits, text] of [["123", "אב 123 גד"], ["١٢٣", "سعر ١٢٣ بيت"]]) {
    await follow(page, text);
    const number = boxes(page, ".letter").filter(({ it }) => digits.includes(it.textContent));
    equal(`the digits of ${digits} stand in their order`, [number.length, ways(number)], [3, ["right"]]);
    const [first, last] = [text.indexOf(digits[0]), text.indexOf(digits[2])];
    const within = boxes(page, ".position").filter(({ at }) => at > first && at <= last);
    equal("and the positions between them", ways(within), ["right"]);
  }
}

async function tryPlaces(page) {
  for (const text of [...MIXED, ...EXAMPLES.map(([, , it]) => it)]) {
    await follow(page, text);
    const found = boxes(page, ".position");
    const isWhole = found.length === [...text].length + 1;
    const fault = crowded(found).join() || (isWhole ? "" : `${found.length} signs`);
    say(`no two of the signs of ${JSON.stringify(text)} are in one place`, fault);
  }
}

/** Letters join where a font has shapes for that: each stroke goes to the edge of its letter's box, where the next
 * one starts. */
async function tryJoined(page) {
  const { font } = page.window.getComputedStyle(page.find("positions"));
  const context = document.createElement("canvas").getContext("2d");
  context.font = font;
  const width = (text) => context.measureText(text).width;
  if (width("بب") === width("ب\u200cب")) return say("no font of this machine joins Arabic letters, so that is not tried");
  await follow(page, "سعر دار بَب");
  const shown = boxes(page, ".letter").map(({ it }) => it.textContent.replaceAll(/\u0640+/g, "-"));
  equal("Arabic letters join those that they join in words", shown, ["س-", "-ع-", "-ر", " ", "د", "ا", "ر", " ", "ب-",
    "-\u064e-", "-ب"]);
  const found = boxes(page, ".letter").slice(0, 3).map(({ box }) => box);
  const apart = found.slice(1).map((box, k) => Math.round(found[k].left - box.right));
  equal("with nothing between their boxes", apart, [0, 0]);
}

/** What is drawn of a long text, and that each part of it can be reached. */
function tryLong(page) {
  write(page, "word ".repeat(200_000));
  const count = () => page.document.querySelectorAll(".position").length;
  say(`of a million positions ${count()} are drawn`, count() > 100 && count() < 4000 ? "" : "too few or too many");
  press(page, "End");
  matches("the last can be reached", page.find("detail").textContent, /the end of the text.*1000000/);
  const chosen = page.document.querySelector("[aria-selected=true]")?.getBoundingClientRect();
  const view = page.find("positions").getBoundingClientRect();
  say("and is in view", chosen && chosen.top >= view.top && chosen.bottom <= view.bottom ? ""
    : `it is at ${JSON.stringify(chosen)}`);
  say("the columns show a part", page.find("ours").textContent.length < 5000 ? ""
    : `${page.find("ours").textContent.length} units`);
}

/** After an edit the page shows what it shows of a new text, in the paragraphs that stayed, too. */
async function tryEdits(page) {
  const drawn = (page) => boxes(page, ".position").map(({ it, at }) => `${at}${it.textContent}`).join(" ");
  const edits = [["ab cd\nef gh\nij", "ab cd\nef Xgh\nij"], ["a\r\nb", "a\nb"], ["ab\ncd\n", "abcd\n"], ["", "a b"],
    ["a b\nc", ""]];
  for (const [before, after] of edits) {
    await follow(page, before);
    write(page, after);
    const edited = drawn(page);
    await follow(page, `${after} `);
    await follow(page, after);
    equal(`an edit of ${JSON.stringify(before)} shows ${JSON.stringify(after)}`, edited, drawn(page));
  }
}

/** The places of signs that are at no edge of a letter. */
function astray(page) {
  const letters = boxes(page, ".letter").map(({ box }) => box);
  const isAt = (box, x) => Math.abs(box.left - x) < 1.5 || Math.abs(box.right - x) < 1.5;
  const isBelow = (sign, box) => Math.abs(sign.top - box.bottom) < box.height / 2;
  const stands = ({ box }) => letters.some((it) => isBelow(box, it) && isAt(it, (box.left + box.right) / 2));
  return boxes(page, ".position").filter((it) => !stands(it)).map(({ at }) => at);
}

/** Signs are at the edges of letters in a page that opens with a text, whether or not its view scrolls, and after a
 * resize. */
async function tryEdges() {
  for (const count of [1, 3, 20]) {
    const text = `${MIXED.slice(-2).join(" ")} سعر\n`.repeat(count);
    const page = await openPage(`#${new URLSearchParams({ text })}`);
    const frames = () => new Promise((done) =>
      page.window.requestAnimationFrame(() => page.window.requestAnimationFrame(done)));
    await frames();
    equal(`signs stand at the edges of letters in ${count} lines`, astray(page), []);
    page.window.frameElement.style.width = "600px";
    await frames();
    await frames();
    equal("and after a resize", astray(page), []);
  }
}

/** A text that is longer than a row, as a page opens with it, is drawn down to the end of its view. */
async function tryRows() {
  const text = `${"some words of a line ".repeat(4)}\nnext one\n\nlast one`;
  const page = await openPage(`#${new URLSearchParams({ text })}`);
  equal("all paragraphs of a short text are drawn", boxes(page, ".position").length, text.length + 1);
}

export async function tryLetters() {
  await tryRows();
  await tryEdges();
  const page = await openPage();
  await tryDirections(page);
  await tryPlaces(page);
  await tryJoined(page);
  await tryEdits(page);
  tryLong(page);
  change(page, "example", "0");
  matches("an example opens with a position that its rule decides", page.find("detail").textContent, /Rule LB25/);
  equal("no error in the page", page.faults, []);
}
