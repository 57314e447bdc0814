/**
 * A text and what is decided of it, paragraph by paragraph. After a required break the rules start anew, so that an
 * edit changes the paragraphs that it touches, and no other.
 */

import { characterAt, characterBefore } from "./characters.js";

const KINDS = ["no", "may", "must"];
const MUST = 2;
/** How many units are compared at once where two texts are compared. */
const STRETCH = 4096;

/** How many units two texts have in common at their start. */
function commonStart(one, other) {
  const most = Math.min(one.length, other.length);
  let at = 0;
  while (at < most && one.slice(at, at + STRETCH) === other.slice(at, at + STRETCH)) at += STRETCH;
  while (at < most && one[at] === other[at]) at++;
  return Math.min(at, most);
}

/** How many they have in common at their end, but no more than so many. */
function commonEnd(one, other, most) {
  const isSame = (from, to) => one.slice(one.length - to, one.length - from) === other.slice(other.length - to,
    other.length - from);
  let size = 0;
  while (size + STRETCH <= most && isSame(size, size + STRETCH)) size += STRETCH;
  while (size < most && isSame(size, size + 1)) size++;
  return size;
}

/** The text from one place to another, with the character that follows, as a break after a line end depends on that
 * one. */
function withNext(text, start, end) {
  return text.slice(start, end + characterAt(text, end).length);
}

/** The index of the first of some rising places that is not below a given one. */
function firstFrom(places, least) {
  let [low, high] = [0, places.length];
  while (low < high) {
    const middle = (low + high) >> 1;
    if (places[middle] < least) low = middle + 1;
    else high = middle;
  }
  return low;
}

export class DecidedText {
  #table;
  #profile = 1;
  #starts;
  text = "";
  /** The paragraphs, each with its `length` in UTF-16 units. One that did not change stays the same object. */
  paragraphs;

  constructor(table) {
    this.#table = table;
    this.set("", 1);
  }

  /** Takes a text and a profile, and decides all of it. */
  set(text, profile) {
    this.text = text;
    this.#profile = profile;
    this.paragraphs = this.#paragraphsOf(0, text.length);
    this.#count();
  }

  /** Takes a text that an edit made of the one before, decides the paragraphs that changed, and returns how many
   * these are. */
  edit(text) {
    const before = this.text;
    const start = commonStart(before, text);
    const end = before.length - commonEnd(before, text, Math.min(before.length, text.length) - start);
    // (a line end at the place of the change can become a part of CR LF)
    const first = this.indexAt(Math.max(0, start - 1));
    const last = this.indexAt(end);
    const from = this.#starts[first];
    this.text = text;
    const changed = this.#paragraphsOf(from, this.#starts[last + 1] + text.length - before.length);
    this.paragraphs = [...this.paragraphs.slice(0, first), ...changed, ...this.paragraphs.slice(last + 1)];
    this.#count();
    return changed.length;
  }

  #paragraphsOf(start, end) {
    // (an empty text is a paragraph, as it has a position)
    if (this.text.length === 0) return [{ length: 0, columns: undefined }];
    const { at, kind } = this.#table.breakColumns(withNext(this.text, start, end), { profile: this.#profile });
    const found = [];
    let before = 0;
    for (let k = 0; k < at.length && at[k] <= end - start; k++) {
      if (kind[k] !== MUST) continue;
      found.push({ length: at[k] - before, columns: undefined });
      before = at[k];
    }
    return found;
  }

  #count() {
    this.#starts = new Uint32Array(this.paragraphs.length + 1);
    this.paragraphs.forEach(({ length }, k) => (this.#starts[k + 1] = this.#starts[k] + length));
  }

  startOf(index) {
    return this.#starts[index];
  }

  paragraphText(index) {
    return this.text.slice(this.#starts[index], this.#starts[index + 1]);
  }

  /** Which paragraph has the character at a place. The text's end is of the last one. */
  indexAt(place) {
    let [low, high] = [0, this.paragraphs.length - 1];
    while (low < high) {
      const middle = (low + high + 1) >> 1;
      if (this.#starts[middle] <= place) low = middle;
      else high = middle - 1;
    }
    return low;
  }

  /**
   * The positions of a part of a paragraph, with places in it. The one at the part's end is there where the
   * paragraph ends, too, and the one at a paragraph's start in the first paragraph only, since in others it is the
   * last of the paragraph before.
   */
  positionsIn(index, from, to) {
    const { at } = this.#columnsOf(index);
    const first = firstFrom(at, from === 0 && index > 0 ? 1 : from);
    const last = firstFrom(at, to === this.paragraphs[index].length ? to + 1 : to);
    return Array.from({ length: last - first }, (_, k) => this.#position(index, first + k));
  }

  #position(index, k) {
    const { at, kind, rule } = this.#columnsOf(index);
    return { at: at[k], kind: KINDS[kind[k]], rule: this.#table.ruleLabel(rule[k]) };
  }

  #columnsOf(index) {
    const paragraph = this.paragraphs[index];
    const start = this.#starts[index];
    const decide = () => this.#table.positionColumns(withNext(this.text, start, start + paragraph.length),
      { profile: this.#profile });
    return (paragraph.columns ??= decide());
  }

  /** The index of the last position of a paragraph that is not after a place of the text. */
  #lastUpTo(index, place) {
    return firstFrom(this.#columnsOf(index).at, place - this.#starts[index] + 1) - 1;
  }

  /** The position at a place of the text, or the last one before it. */
  positionAt(place) {
    const index = this.indexAt(place);
    const k = this.#lastUpTo(index, place);
    // A position between two paragraphs is the last of the first one.
    const [of, found] = k === 0 && index > 0 ? [index - 1, this.#lastUpTo(index - 1, this.#starts[index])] : [index, k];
    const position = this.#position(of, found);
    return { ...position, at: this.#starts[of] + position.at };
  }

  /** The position after the character at a place, if there is one. */
  next(place) {
    const { length } = characterAt(this.text, place);
    return length > 0 ? this.positionAt(place + length) : undefined;
  }

  /** The position before the character that ends before a place, if there is one. */
  previous(place) {
    const { length } = characterBefore(this.text, place);
    return length > 0 ? this.positionAt(place - length) : undefined;
  }
}
