/**
 * Letters with room for a sign between any two. They are text in spans, and nothing stands between these: what did
 * would turn numbers in right-to-left text round, as the bidirectional algorithm takes it for a neutral character.
 */
import { characterAt, characterBefore } from "./characters.js";
import { hiddenName } from "./notation.js";

/** The least width of a letter, in pixels, so that it can be pointed at, and so can the signs below. */
export const LEAST_WIDTH = 24;
const LEAST_PADDING = 3;
/** How many pixels the browser's widths may be smaller than measured ones. */
const ROUNDING = 0.05;
/** How much narrower the name of a character that is not seen is than text of the letters' size. */
const NAME_SCALE = 0.6;

/** Scripts that join letters by a stroke, which this letter prolongs. */
const JOINING = /^[\p{scx=Arab}\p{scx=Syrc}\p{scx=Mand}\p{scx=Adlm}\p{scx=Rohg}\p{scx=Sogd}]$/u;
const STROKE = "\u0640";
const NON_JOINER = "\u200c";
const MARK = /^\p{M}$/u;
const MARK_BASE = "\u25cc";
/** Characters that would end a line here, or go on to the next tab stop. */
const CONTROL = /^[\p{Cc}\u2028\u2029]$/u;

/** The widths of texts in a font, and which letters it joins. */
export class FontMeasure {
  #context = document.createElement("canvas").getContext("2d");
  #widths = new Map();

  constructor(font) {
    this.#context.font = font;
  }

  width(text) {
    if (!this.#widths.has(text)) this.#widths.set(text, this.#context.measureText(text).width);
    return this.#widths.get(text);
  }

  /** Whether two letters that follow each other are drawn in other shapes than apart. */
  joins(one, other) {
    if (!JOINING.test(one) || !JOINING.test(other)) return false;
    return Math.abs(this.width(one + other) - this.width(one + NON_JOINER + other)) > 0.05;
  }
}

/** The letter that a stroke goes to from a place, over marks: the one before, or the one after. */
function neighbour(text, place, isBefore) {
  for (;;) {
    const found = isBefore ? characterBefore(text, place) : characterAt(text, place);
    if (!MARK.test(found)) return found;
    place += isBefore ? -found.length : found.length;
  }
}

/** A character as it is shown: what is written, and whether it is joined to what is before and after. */
function shapeOf(text, at, measure) {
  const character = characterAt(text, at);
  if (CONTROL.test(character)) return { character, written: " ", before: false, after: false };
  const [before, after] = [neighbour(text, at, true), neighbour(text, at + character.length, false)];
  if (!MARK.test(character)) {
    return { character, written: character, before: measure.joins(before, character),
      after: measure.joins(character, after) };
  }
  const isJoined = measure.joins(before, after);
  return { character, written: (isJoined ? STROKE : MARK_BASE) + character, before: isJoined, after: isJoined };
}

/** What is written for a character, with strokes towards the letters to which it is joined, as wide as a letter has
 * to be. */
function withStrokes({ written, before, after }, measure) {
  if (!before && !after) return written;
  const padding = before && after ? 0 : LEAST_PADDING;
  const missing = LEAST_WIDTH - padding - measure.width((before ? STROKE : "") + written + (after ? STROKE : ""));
  const count = 1 + Math.max(0, Math.ceil(missing / measure.width(STROKE.repeat(2)) * 2 / (before + after)));
  const strokes = STROKE.repeat(count);
  return (before ? strokes : "") + written + (after ? strokes : "");
}

/** The element of the character at a place. */
export function letterElement(text, at, measure) {
  const shape = shapeOf(text, at, measure);
  const made = document.createElement("span");
  made.className = "letter";
  made.dataset.at = at;
  made.textContent = withStrokes(shape, measure);
  const name = hiddenName(shape.character);
  const shown = name ? measure.width(name) * NAME_SCALE + 4 : 0;
  const room = Math.max(LEAST_WIDTH, shown) - measure.width(made.textContent);
  const padding = Math.max(LEAST_PADDING, room / 2 + ROUNDING);
  // A stroke goes on into the next letter. All scripts that have one go from right to left.
  made.style.paddingRight = shape.before ? 0 : `${padding.toFixed(2)}px`;
  made.style.paddingLeft = shape.after ? 0 : `${padding.toFixed(2)}px`;
  if (name) made.dataset.name = name;
  return made;
}
