/** A piece of a paragraph as it is drawn: its letters, and below these the signs of its positions. */
import { characterAt } from "./characters.js";
import { element } from "./elements.js";
import { LEAST_WIDTH, letterElement } from "./letters.js";
import { SAYS, signOf } from "./notation.js";
import { signPlaces } from "./places.js";

/** The most UTF-16 units of a piece. A longer paragraph is drawn in several. */
export const MOST_UNITS = 400;

/** The direction of a text, from the first letter of its front that has one. */
export function directionOf(text) {
  const probe = element("p", "", text.slice(0, MOST_UNITS));
  probe.dir = "auto";
  return probe.matches(":dir(rtl)") ? "rtl" : "ltr";
}

/** The pieces of a paragraph, which are not drawn yet. They don't keep its text, as a slice would keep the whole
 * text. */
export function piecesOf(paragraph) {
  const found = paragraph === "" ? [new Piece(0, 0)] : [];
  for (let from = 0; from < paragraph.length; ) {
    let to = Math.min(from + MOST_UNITS, paragraph.length);
    if (/^[\udc00-\udfff]/.test(paragraph.slice(to, to + 1))) to++;
    found.push(new Piece(from, to));
    from = to;
  }
  return found;
}

class Piece {
  /** The paragraph's index, which edits before it change. */
  index = 0;
  height = undefined;
  element = undefined;

  constructor(from, to) {
    this.from = from;
    this.to = to;
  }

  /** Makes the element, without signs, as letters have a place only once they are laid out. */
  draw(paragraph, measure) {
    const letters = element("div", "letters");
    letters.setAttribute("aria-hidden", "true");
    for (let at = this.from; at < this.to; at += characterAt(paragraph, at).length) {
      letters.append(letterElement(paragraph, at, measure));
    }
    this.element = element("div", "piece");
    this.element.setAttribute("role", "presentation");
    this.element.dir = directionOf(paragraph);
    this.element.append(letters);
  }

  /** Where the letters are, once the element is laid out. */
  measure() {
    const origin = this.element.getBoundingClientRect();
    const boxes = [...this.element.firstChild.children].map((it) => it.getBoundingClientRect());
    return { boxes, origin };
  }

  /** Puts the signs of positions, and the names of what is not seen, where the letters are. */
  putSigns(positions, { boxes, origin }) {
    const letters = [...this.element.firstChild.children];
    const order = new Map(letters.map((it, k) => [Number(it.dataset.at), k]));
    // (an empty text has a sign, but no letters)
    const alone = { x: origin.left + LEAST_WIDTH, y: origin.bottom - LEAST_WIDTH };
    const places = boxes.length > 0 ? signPlaces(boxes, this.element.dir) : [alone];
    const put = (made, { x, y }) => {
      made.style.left = `${x - origin.left}px`;
      made.style.top = `${y - origin.top}px`;
      return made;
    };
    const names = letters.flatMap((it, k) => {
      const middle = { x: (boxes[k].left + boxes[k].right) / 2, y: (boxes[k].top + boxes[k].bottom) / 2 };
      return it.dataset.name ? [put(nameElement(it.dataset.name), middle)] : [];
    });
    const signs = positions.map((it) => put(signElement(it), places[order.get(it.at) ?? places.length - 1]));
    this.element.append(...names, ...signs);
    this.height = origin.height;
  }

  /** Lets the element go, as it is not in view. */
  release() {
    this.element?.remove();
    this.element = undefined;
  }

  /** About how high it is in a list of this width, before it is drawn. */
  expectedHeight(width, row) {
    return Math.ceil(((this.to - this.from) * (LEAST_WIDTH + 1)) / Math.max(width, LEAST_WIDTH)) * row;
  }

  sign(at) {
    return this.element?.querySelector(`.position[data-at="${at}"]`);
  }

  letter(at) {
    return this.element?.querySelector(`.letter[data-at="${at}"]`);
  }
}

function nameElement(name) {
  const made = element("span", `hidden-character${name.length === 1 ? " dot" : ""}`, name);
  made.setAttribute("aria-hidden", "true");
  return made;
}

function signElement({ at, kind, rule }) {
  const made = element("span", `position ${kind}`, signOf(kind));
  made.dataset.at = at;
  made.setAttribute("role", "option");
  made.setAttribute("aria-selected", "false");
  made.setAttribute("aria-label", `${SAYS[kind]}, rule ${rule}`);
  return made;
}
