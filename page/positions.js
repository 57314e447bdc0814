/** The view of the positions of a text: its letters and a sign at each position, one of them chosen. What is in view
 * is drawn. */
import { characterAt } from "./characters.js";
import { element } from "./elements.js";
import { FontMeasure } from "./letters.js";
import { piecesOf } from "./pieces.js";

export class PositionsView {
  #list;
  #inner;
  #decided;
  #chose;
  #measure;
  #row;
  #cover;
  #width = 0;
  #pieces = [];
  #tops = [0];
  #drawn = [];
  #known = new WeakMap();
  #chosenAt;
  #ofLetter = false;
  #marked = [];

  /**
   * `chose` is called with a position that is chosen and, where a letter is, with the position after this. `cover`
   * may stand over the list's end.
   */
  constructor(list, cover, decided, chose) {
    this.#list = list;
    this.#cover = cover;
    this.#decided = decided;
    this.#chose = chose;
    this.#inner = element("div", "");
    this.#inner.setAttribute("role", "presentation");
    list.replaceChildren(this.#inner);
    const style = getComputedStyle(list);
    this.#measure = new FontMeasure(style.font);
    this.#row = parseFloat(style.lineHeight);
    list.addEventListener("click", (event) => this.#chooseElement(event.target));
    list.addEventListener("pointerover", (event) => {
      if (event.pointerType === "mouse") this.#chooseElement(event.target);
    });
    list.addEventListener("keydown", (event) => this.#onKey(event));
    list.addEventListener("scroll", () => this.#draw());
    // (in a frame of its own, as what is done changes sizes again)
    new ResizeObserver(() => requestAnimationFrame(() => this.#resize())).observe(list);
  }

  /** Shows what is decided now, with no position chosen. Pieces of paragraphs that did not change are kept. */
  show() {
    const all = this.#decided.paragraphs.map((paragraph, index) => {
      if (!this.#known.has(paragraph)) this.#known.set(paragraph, piecesOf(this.#decided.paragraphText(index)));
      const pieces = this.#known.get(paragraph);
      for (const it of pieces) it.index = index;
      return pieces;
    });
    this.#pieces = all.flat();
    this.#chosenAt = undefined;
    this.#mark([]);
    this.#draw();
  }

  #resize() {
    if (this.#list.clientWidth === this.#width) return;
    for (const it of this.#drawn) it.release();
    this.#draw();
  }

  #countTops() {
    const room = this.#list.clientWidth - this.#row;
    this.#tops = new Float64Array(this.#pieces.length + 1);
    this.#pieces.forEach((it, k) => {
      this.#tops[k + 1] = this.#tops[k] + (it.height ?? it.expectedHeight(room, this.#row));
    });
  }

  /** The first piece in view or a little above, and the one past the last. */
  #inView() {
    const margin = this.#row * 2;
    const height = parseFloat(getComputedStyle(this.#list).maxHeight);
    const [top, bottom] = [this.#list.scrollTop - margin, this.#list.scrollTop + height + margin];
    const first = Math.max(0, this.#tops.findIndex((it) => it > top) - 1);
    const past = this.#tops.findIndex((it, k) => k > first && it >= bottom);
    return [first, past < 0 ? this.#pieces.length : past];
  }

  /** Draws the pieces in view, and removes the others. */
  #draw() {
    this.#countTops();
    const [first, past] = this.#inView();
    const wanted = this.#pieces.slice(first, past);
    for (const it of this.#drawn) if (!wanted.includes(it)) it.release();
    const fresh = wanted.filter((it) => !it.element);
    for (const it of fresh) it.draw(this.#decided.paragraphText(it.index), this.#measure);
    wanted.forEach(({ element }, k) => {
      if (this.#inner.children[k] !== element) this.#inner.insertBefore(element, this.#inner.children[k] ?? null);
    });
    this.#inner.style.paddingTop = `${this.#tops[first]}px`;
    this.#inner.style.paddingBottom = `${this.#tops.at(-1) - this.#tops[past]}px`;
    this.#drawn = wanted;
    // (all are measured before any is changed, so that the browser lays out once)
    const measured = fresh.map((it) => [it, it.measure()]);
    this.#width = this.#list.clientWidth;
    for (const [it, found] of measured) it.putSigns(this.#decided.positionsIn(it.index, it.from, it.to), found);
    if (fresh.length === 0) return;
    if (this.#chosenAt !== undefined) this.#select(this.#chosenAt, this.#ofLetter);
    // If these are lower than expected, others are in view, too.
    this.#draw();
  }

  /** The piece with the position at a place of the text, and the place in its paragraph. */
  #pieceOf(place, isLetter = false) {
    const index = place > 0 && !isLetter ? this.#decided.indexAt(place - 1) : this.#decided.indexAt(place);
    const at = place - this.#decided.startOf(index);
    const pieces = this.#known.get(this.#decided.paragraphs[index]);
    return { piece: pieces.find((it) => at < it.to) ?? pieces.at(-1), at };
  }

  #chooseElement(target) {
    const chosen = target.closest?.(".position, .letter");
    if (!chosen) return;
    const piece = this.#drawn.find(({ element }) => element.contains(chosen));
    const place = this.#decided.startOf(piece.index) + Number(chosen.dataset.at);
    this.#take(place, chosen.classList.contains("letter"));
  }

  #onKey(event) {
    const last = this.#decided.text.length;
    const at = this.#chosenAt ?? 0;
    const isRight = this.#pieceOf(at).piece?.element?.dir === "rtl";
    const [next, before] = [() => this.#decided.next(at)?.at, () => this.#decided.previous(at)?.at];
    const to = {
      ArrowRight: isRight ? before : next,
      ArrowLeft: isRight ? next : before,
      ArrowDown: () => this.#inRow(at, 1) ?? next(),
      ArrowUp: () => this.#inRow(at, -1) ?? before(),
      Home: () => 0,
      End: () => last,
    }[event.key];
    if (!to || event.altKey || event.ctrlKey || event.metaKey) return;
    event.preventDefault();
    this.choose(to() ?? at);
  }

  /** The place of the position that is nearest in the row below the one at a place, or above it. */
  #inRow(place, way) {
    const { piece, at } = this.#pieceOf(place);
    const from = piece?.sign(at)?.getBoundingClientRect();
    if (!from) return undefined;
    const signs = [...this.#inner.querySelectorAll(".position")].map((it) => [it, it.getBoundingClientRect()]);
    const ahead = signs.filter(([, box]) => (box.top - from.top) * way > from.height / 2);
    const nearest = Math.min(...ahead.map(([, box]) => (box.top - from.top) * way));
    const row = ahead.filter(([, box]) => (box.top - from.top) * way < nearest + from.height / 2);
    const [found] = row.sort(([, one], [, other]) => Math.abs(one.left - from.left) - Math.abs(other.left - from.left));
    return found && this.#placeOf(found[0]);
  }

  #placeOf(sign) {
    const piece = this.#drawn.find(({ element }) => element.contains(sign));
    return this.#decided.startOf(piece.index) + Number(sign.dataset.at);
  }

  /** The place of the chosen position, if one is. */
  get chosenAt() {
    return this.#chosenAt;
  }

  /** Chooses the position at a place of the text, or the last one before it, and brings it into view. */
  choose(place) {
    const { at } = this.#decided.positionAt(place);
    this.#take(at, false);
    this.#reveal(at);
  }

  #take(place, ofLetter) {
    if (place === this.#chosenAt && ofLetter === this.#ofLetter && this.#marked.length > 0) return;
    this.#chosenAt = place;
    this.#ofLetter = ofLetter;
    this.#select(place, ofLetter);
    this.#chose(this.#decided.positionAt(place), ofLetter ? this.#decided.next(place) : undefined);
  }

  #mark(elements) {
    for (const it of this.#marked) {
      it.classList.remove("chosen");
      if (it.role === "option") it.setAttribute("aria-selected", "false");
      it.removeAttribute("id");
    }
    this.#marked = elements;
    for (const it of elements) it.classList.add("chosen");
  }

  /** Marks what is drawn of what is chosen. */
  #select(place, ofLetter) {
    const size = characterAt(this.#decided.text, place).length;
    const at = this.#pieceOf(place);
    const sign = at.piece?.sign(at.at);
    const after = ofLetter ? this.#pieceOf(place + size) : undefined;
    const letter = ofLetter ? this.#pieceOf(place, true) : undefined;
    this.#mark([sign, letter?.piece?.letter(letter.at), after?.piece?.sign(after.at)].filter(Boolean));
    if (!sign) {
      this.#list.removeAttribute("aria-activedescendant");
      return;
    }
    sign.id = "chosen-position";
    sign.setAttribute("aria-selected", "true");
    sign.setAttribute("aria-posinset", place + 1);
    sign.setAttribute("aria-setsize", this.#decided.text.length + 1);
    this.#list.setAttribute("aria-activedescendant", sign.id);
  }

  #reveal(place) {
    const { piece, at } = this.#pieceOf(place);
    if (!this.#drawn.includes(piece)) {
      this.#list.scrollTop = this.#tops[this.#pieces.indexOf(piece)] - this.#list.clientHeight / 3;
      this.#draw();
    }
    const [box, room] = [piece.sign(at)?.getBoundingClientRect(), this.#list.getBoundingClientRect()];
    if (!box) return;
    // (with the letters above the sign)
    const cover = this.#cover.getBoundingClientRect();
    const end = cover.left < box.right && cover.right > box.left ? Math.min(room.bottom, cover.top) : room.bottom;
    const [above, below] = [box.top - this.#row / 2 - room.top, box.bottom - end];
    if (above < 0) this.#list.scrollTop += above - this.#row / 4;
    else if (below > 0) this.#list.scrollTop += below + this.#row / 4;
  }
}
