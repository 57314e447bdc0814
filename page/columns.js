/** A text in a column, once with given breaks and once as the browser breaks it, with the places where only one
 * starts a line. */
import { Blocks } from "./blocks.js";
import { element } from "./elements.js";
import { headLength, lineStarts, withoutLineEnd } from "./lines.js";
import { hiddenName } from "./notation.js";

/** How many places are told of each column, and how many characters of the text there. */
const MOST_TOLD = 5;
const MOST_QUOTED = 14;
const SOFT_HYPHEN = "\u00ad";
const HYPHEN = "\u2010";

/** The places in an element's text at which the browser starts its lines. Blank lines are left out. */
function browserStarts({ firstChild: node }) {
  const range = document.createRange();
  const starts = [];
  let bottom = -Infinity;
  for (let k = 0; k < (node?.length ?? 0); k++) {
    if (withoutLineEnd(node.data[k]) === "") continue;
    range.setStart(node, k);
    range.setEnd(node, k + 1);
    // A character at the start of a line can have an empty box at the end of the line before, too, and boxes of some
    // fonts are so high that they reach into the next line.
    const box = [...range.getClientRects()].at(-1);
    if (!box || (box.top + box.bottom) / 2 < bottom) continue;
    starts.push(k);
    bottom = box.bottom;
  }
  return starts;
}

/** A paragraph by its segments, which end at `ends`, with a line's end before each segment that is in `starts`. */
function paragraphElement(text, ends, starts) {
  const made = element("div", "lines");
  const first = new Set(starts);
  made.dir = "auto";
  ends.forEach((end, k) => {
    const segment = text.slice(k === 0 ? 0 : ends[k - 1], end);
    const isLast = k + 1 === ends.length || first.has(k + 1);
    const head = segment.slice(0, headLength(segment));
    const isBroken = isLast && k + 1 < ends.length;
    const seen = element("span", isBroken && head.endsWith(SOFT_HYPHEN) ? "segment hyphenated" : "segment", head);
    made.append(seen, element("span", isLast ? "hanging" : "space", segment.slice(head.length)));
    if (isBroken) made.append(document.createElement("br"));
  });
  return made;
}

/** The places of the lines of blocks in the text that these make together. */
function placesOf(blocks) {
  const places = new Set();
  let offset = 0;
  for (const { starts, length } of blocks) {
    for (const it of starts) places.add(offset + it);
    offset += length;
  }
  return places;
}

export class ColumnsView {
  #ours;
  #theirs;
  #told;
  #ourBlocks;
  #theirBlocks;
  #probe = element("div", "probe");
  #passage = { text: "", paragraphs: [], offset: 0 };
  #room = 0;

  constructor(ours, theirs, told) {
    this.#ours = ours;
    this.#theirs = theirs;
    this.#told = told;
    this.#ourBlocks = new Blocks(ours, (paragraph) => this.#ourBlock(paragraph));
    this.#theirBlocks = new Blocks(theirs, (text) =>
      ({ element: element("div", "", text), length: text.length, starts: undefined }));
    ours.parentElement.append(this.#probe);
    // A drag of one column takes the other along, in a frame of its own, as that changes sizes again.
    const observer = new ResizeObserver((entries) => requestAnimationFrame(() => this.#follow(entries)));
    observer.observe(ours);
    observer.observe(theirs);
  }

  /**
   * Shows a passage: its `text`, the `offset` in the whole text at which it starts, and its `paragraphs`, each with
   * its `text` and the `ends` of its segments.
   */
  show(passage) {
    this.#passage = passage;
    const ours = this.#ourBlocks.show(passage.paragraphs, ({ text, ends }) => `${ends.join()} ${text}`);
    // (a browser ends a paragraph at a line feed)
    const theirs = this.#theirBlocks.show(passage.text.split(/(?<=\n)/), (text) => text);
    for (const it of theirs) it.starts ??= browserStarts(it.element);
    this.#compare(placesOf(ours), placesOf(theirs));
  }

  set width(pixels) {
    this.#ours.style.width = this.#theirs.style.width = `${pixels}px`;
    this.#layOut();
  }

  #follow(entries) {
    const width = entries[0].target.style.width;
    for (const column of [this.#ours, this.#theirs]) {
      if (width && column.style.width !== width) column.style.width = width;
    }
    this.#layOut();
  }

  /** Lays all out again where the room for lines is another than before. */
  #layOut() {
    const style = getComputedStyle(this.#ours);
    const sides = ["paddingLeft", "paddingRight", "borderLeftWidth", "borderRightWidth"];
    const room = this.#ours.getBoundingClientRect().width - sides.reduce((sum, it) => sum + parseFloat(style[it]), 0);
    if (room === this.#room) return;
    this.#room = room;
    this.#ourBlocks.clear();
    this.#theirBlocks.clear();
    this.show(this.#passage);
  }

  #ourBlock({ text, ends }) {
    const starts = lineStarts(text, ends, (piece) => {
      // (a soft hyphen is seen where a line ends after it)
      this.#probe.textContent = piece.endsWith(SOFT_HYPHEN) ? piece + HYPHEN : piece;
      return this.#probe.getBoundingClientRect().width <= this.#room;
    });
    const places = starts.map((k) => (k === 0 ? 0 : ends[k - 1]));
    const isBlank = (place) => withoutLineEnd(text.slice(place)) === "";
    const made = paragraphElement(text, ends, starts);
    return { element: made, length: text.length, starts: places.filter((it) => !isBlank(it)) };
  }

  /** Says at which places only one of the two starts a line. */
  #compare(ours, theirs) {
    const onlyOurs = [...ours].filter((it) => !theirs.has(it));
    const onlyTheirs = [...theirs].filter((it) => !ours.has(it));
    this.#mark(new Set([...onlyOurs, ...onlyTheirs]));
    if (onlyOurs.length + onlyTheirs.length === 0) {
      this.#told.textContent = "Both columns have the same lines.";
      return;
    }
    const parts = [
      ...this.#sentence("Only with these breaks, lines start with ", onlyOurs),
      ...this.#sentence("Only in this browser, lines start with ", onlyTheirs),
    ];
    this.#told.replaceChildren(...parts, "Offsets count UTF-16 units.");
  }

  #sentence(start, places) {
    if (places.length === 0) return [];
    const tell = (it, k) => [k > 0 ? ", " : "", this.#quoted(it), ` (offset ${this.#passage.offset + it})`];
    const told = places.slice(0, MOST_TOLD).flatMap(tell);
    const more = places.length > MOST_TOLD ? ` and ${places.length - MOST_TOLD} more places` : "";
    return [start, ...told, `${more}. `];
  }

  #quoted(place) {
    const rest = [...this.#passage.text.slice(place, place + 2 * MOST_QUOTED)];
    const shown = rest.slice(0, MOST_QUOTED).map((it) => (it === " " ? it : hiddenName(it) ?? it)).join("");
    return element("bdi", "", `“${shown}${rest.length > MOST_QUOTED ? "…" : ""}”`);
  }

  /** Marks in our column the places at which only one starts a line. */
  #mark(places) {
    for (const it of this.#ours.querySelectorAll(".line-end")) it.remove();
    let place = 0;
    for (const it of this.#ours.querySelectorAll(".segment")) {
      place += it.textContent.length + it.nextSibling.textContent.length;
      if (places.has(place)) it.nextSibling.after(element("span", "line-end"));
    }
  }
}
