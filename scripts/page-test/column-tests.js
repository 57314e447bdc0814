/**
 * The lines of the page's column, compared with a layout made here from the breaks and measured widths: a segment
 * goes to the next line where the line with it, without white space at its end, would be wider than the column.
 */
import { change, equal, follow, openPage, say } from "./harness.js";

const WIDTHS = Array.from({ length: 28 }, (_, k) => 40 + 22 * k);
/** How many pixels a browser's sums of widths may be from the width of the whole. */
const ROUNDING = 0.6;
const TEXTS = {
  "English prose": "It was a bright cold day in April, and the clocks were striking thirteen. He slipped in quickly, though not quickly enough.",
  "numbers and a URL": "A well-known price: $1,234.50 (50 % off) — see https://example.org/a-b?c=d.",
  "a long word": "So the Donaudampfschifffahrtsgesellschaftskapitän spoke to a few of us (Nordostseekanalschleusenwärterhäuschen).",
  "soft hyphens": "Donau\u00addampf\u00adschiff\u00adfahrts\u00adgesell\u00adschafts\u00adkapitän und Nord\u00adost\u00adsee\u00adkanal",
  "several spaces": "one  two   three    four     five      six       seven   ( eight )   nine  ",
  "tabs": "name\tsize\tkind of file\tand a longer one\tx\t\ty\tend of it",
  "CR LF": "first line of some words      \r\nsecond line, which is longer than the first  \r\n\r\nthe last one",
  "Japanese with wide spaces": "「きょうは、ちょっと暑いですね。」と言った。\u3000東京都\u3000千代田区の天気は、晴れのち曇りだった。",
  "Arabic": "السعر ١٬٢٣٤٫٥٠ ريال، أي 10% من المبلغ الذي دفعه في السنة الماضية.",
  "Hebrew and English": "בית-ספר ו/או גן־ילדים עם 25 ילדים, and then some English (עברית) at the end.",
  "Hindi, Korean, emoji": "क्या यह हिन्दी है? हाँ—है। 대한민국은 민주공화국이다. 👩‍👩‍👧 👍🏽 ok\u2003🇫🇷🇩🇪",
};
const LINE_END = /[\n\r\v\f\u0085\u2028\u2029]/;

function isSeen(unit) {
  return !/\s/.test(unit);
}

/** The places of the first characters that are seen in the lines that an element shows. */
function shownLines(root) {
  const walker = root.ownerDocument.createTreeWalker(root, NodeFilter.SHOW_TEXT);
  const range = root.ownerDocument.createRange();
  const found = [];
  let [place, bottom] = [0, -Infinity];
  for (let node = walker.nextNode(); node; node = walker.nextNode()) {
    for (let k = 0; k < node.data.length; k++) {
      range.setStart(node, k);
      range.setEnd(node, k + 1);
      const box = isSeen(node.data[k]) && [...range.getClientRects()].at(-1);
      if (!box || (box.top + box.bottom) / 2 < bottom) continue;
      found.push(place + k);
      bottom = box.bottom;
    }
    place += node.data.length;
  }
  return found;
}

/** A line as it is seen: without white space at its end, and with a hyphen for a soft hyphen there. */
function asLine(text) {
  let end = text.length;
  while (end > 0 && (LINE_END.test(text[end - 1]) || " \t\u2003\u3000".includes(text[end - 1]))) end--;
  return text.slice(0, end) + (text[end - 1] === "\u00ad" ? "\u2010" : "");
}

/** The same places in a layout of breaks. Where a line is as wide as the room but for rounding, it is as it is
 * `shown`. */
function laidOut(text, breaks, widthOf, room, shown) {
  const firstSeen = (from, to = text.length) => [...Array(to - from).keys()].map((k) => from + k).find((it) =>
    isSeen(text[it]));
  const isTooWide = (start, end, before) => {
    const excess = widthOf(asLine(text.slice(start, end))) - room;
    return Math.abs(excess) < ROUNDING ? shown.includes(firstSeen(before)) : excess > 0;
  };
  const starts = [0];
  let before = 0;
  for (const { at, kind } of breaks) {
    if (before > starts.at(-1) && isTooWide(starts.at(-1), at, before)) starts.push(before);
    if (kind === "must") starts.push(at);
    before = at;
  }
  const seen = starts.map((start, k) => firstSeen(start, starts[k + 1]));
  return seen.filter((it, k) => it !== undefined && seen.indexOf(it) === k);
}

function measureOf(page) {
  const probe = page.document.createElement("div");
  const { font, tabSize } = page.window.getComputedStyle(page.find("ours"));
  Object.assign(probe.style, { font, tabSize, position: "absolute", whiteSpace: "pre", visibility: "hidden" });
  page.document.body.append(probe);
  const known = new Map();
  return (text) => {
    if (!known.has(text)) {
      probe.textContent = text;
      known.set(text, probe.getBoundingClientRect().width);
    }
    return known.get(text);
  };
}

export async function tryColumns(table) {
  const page = await openPage();
  const widthOf = measureOf(page);
  for (const [name, text] of Object.entries(TEXTS)) {
    await follow(page, text);
    const breaks = [...table.breaks(text)];
    const wrong = WIDTHS.filter((width) => {
      change(page, "width", width, "input");
      const { clientWidth } = page.find("ours");
      const { paddingLeft, paddingRight } = page.window.getComputedStyle(page.find("ours"));
      const room = clientWidth - parseFloat(paddingLeft) - parseFloat(paddingRight);
      const shown = shownLines(page.find("ours"));
      return shown.join() !== laidOut(text, breaks, widthOf, room, shown).join();
    });
    equal(`the lines of ${name} end where the breaks and widths say, at ${WIDTHS.length} widths`, wrong, []);
  }
  await tryDifferences(page);
}

/** What is said of lines that differ: words of the text, and the offset with its unit. */
async function tryDifferences(page) {
  await follow(page, "one two three four five six seven eight nine ten");
  change(page, "width", "120", "input");
  equal("both columns have the same lines of plain English", page.find("differences").textContent,
    "Both columns have the same lines.");
  await follow(page, TEXTS["soft hyphens"]);
  equal("and of words with soft hyphens", page.find("differences").textContent, "Both columns have the same lines.");
  say("the columns have several lines", page.find("ours").getClientRects()[0].height > 60 ? "" : "one line");
  // A browser takes a next line (NEL) for no end of a line.
  await follow(page, "ab\u0085cd ef");
  const told = page.find("differences").textContent;
  equal("where lines differ is said in words", told,
    "Only with these breaks, lines start with “cd ef” (offset 3). Offsets count UTF-16 units.");
}
