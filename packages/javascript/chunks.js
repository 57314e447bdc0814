// Cuts a text into chunks for search and retrieval, always at breaks outside words (UAX #29).
//
//     import { Chunker } from "lbk/chunks";
//     const chunker = await Chunker.load();
//     for (const { text, start } of chunker.chunks(document, { most: 500 })) ..
//
// The modules find the breaks and the words. This file decides which of them end chunks, as lbk_chunks of lbk.h does.
import { KINDS, Table, load, profileNumber } from "./lbk.js";
import { piece } from "./parts.js";
import { Words } from "./words.js";

const MUST = 2;

/** The limits in the options, each a whole number; Infinity for any number of words. */
function limitsOf({ most = 500, words = Infinity, least = Math.floor(most / 2), overlap = 0 } = {}) {
  const check = (isRight, name, wanted, given) => {
    if (!isRight) throw new RangeError(`${name} must be ${wanted}, not ${String(given)}`);
  };
  const isWithin = (number, from, to) => Number.isInteger(number) && number >= from && number <= to;
  check(isWithin(most, 1, Infinity), "most", "a whole number of 1 or more", most);
  check(words === Infinity || isWithin(words, 1, Infinity), "words", "a whole number of 1 or more, or Infinity", words);
  check(isWithin(least, 0, most), "least", `a whole number from 0 to most (${most})`, least);
  check(isWithin(overlap, 0, Math.floor(most / 2)), "overlap", `a whole number from 0 to half of most (${most})`,
    overlap);
  return { most, words, least, overlap };
}

/** The breaks outside words, in order, and how many words come before each. */
function cutsOf({ at, kind, rule }, { start, end }) {
  const column = (Kind) => new Kind(at.length);
  const cuts = { at: column(Uint32Array), words: column(Uint32Array), kind: column(Uint8Array),
    rule: column(Uint8Array) };
  let [count, words] = [0, 0];
  for (let k = 0; k < at.length; k++) {
    while (words < end.length && end[words] <= at[k]) words++;
    if (words < end.length && start[words] < at[k]) continue;
    cuts.at[count] = at[k];
    cuts.words[count] = words;
    cuts.kind[count] = kind[k];
    cuts.rule[count] = rule[k];
    count++;
  }
  return { ...cuts, count };
}

/** The chunks of a text with these cuts. */
class Cutting {
  #cuts;
  #limits;

  constructor(cuts, limits) {
    this.#cuts = cuts;
    this.#limits = limits;
  }

  /** Whether a chunk fits that begins at an offset, with so many words before it, and ends at a cut. */
  #fits(start, words, end) {
    return this.#cuts.at[end] - start <= this.#limits.most && this.#cuts.words[end] - words <= this.#limits.words;
  }

  /** The index of the cut that ends a chunk, among the cuts from index `first` on. */
  #endOf({ start, words, told }, first) {
    const { at, kind, count } = this.#cuts;
    let [k, early] = [first, -1];
    for (; k < count && this.#fits(start, words, k); k++) {
      if (kind[k] === MUST && at[k] - told >= this.#limits.least) early = k;
    }
    if (k === first) return first;
    return k < count && early >= 0 ? early : k - 1;
  }

  /**
   * The index of the cut at which the next chunk begins, among the cuts from index `first` on, which are inside this
   * one.
   */
  #startBehind(start, first, end) {
    const { at, words, count } = this.#cuts;
    if (this.#limits.overlap === 0 || end + 1 === count) return end;
    for (let k = first; k < end; k++) {
      const twice = at[end] - at[k];
      if (twice <= this.#limits.overlap && 2 * twice <= at[end] - start
        && this.#fits(at[k], words[k], end + 1)) return k;
    }
    return end;
  }

  *chunks() {
    const { at, words, kind, rule, count } = this.#cuts;
    let here = { start: 0, words: 0, told: 0 };
    // (the first cut ahead, and the first one after the start)
    for (let [first, within] = [0, 0]; first < count; ) {
      const end = this.#endOf(here, first);
      const alone = !this.#fits(here.start, here.words, end);
      yield { start: here.start, end: at[end], words: words[end] - here.words, kind: kind[end], rule: rule[end],
        alone };
      const next = this.#startBehind(here.start, within, end);
      here = { start: at[next], words: words[next], told: at[end] };
      [first, within] = [end + 1, next + 1];
    }
  }
}

export class Chunker {
  #table;
  #words;

  constructor(table, words) {
    if (!(table instanceof Table) || !(words instanceof Words)) {
      throw new TypeError("make a Chunker of a Table and Words, or by Chunker.load");
    }
    this.#table = table;
    this.#words = words;
  }

  static async load() {
    return new Chunker(...(await Promise.all([load(), Words.load()])));
  }

  // (this checks its arguments in the call, not in the first step)
  chunks(text, options) {
    const limits = limitsOf(options);
    profileNumber(options);
    const cuts = cutsOf(this.#table.breakColumns(text, options), this.#words.wordColumns(text));
    return this.#rows(text, new Cutting(cuts, limits));
  }

  *#rows(text, cutting) {
    for (const { start, end, words, kind, rule, alone } of cutting.chunks()) {
      yield { start, end, text: piece(text, start, end), words, kind: KINDS[kind], rule: this.#table.ruleLabel(rule),
        alone };
    }
  }
}
