// The words of a text (UAX #29, section 4), without spaces and punctuation.
//
//     import { Words } from "lbk/words";
//     const words = await Words.load();
//     for (const { word, at } of words.words("naïve text")) ..
//
// lbk_words.wasm does the work. It is proved, has no imports, and contains the properties that it needs.
import { ModuleMemory, UnitCounter, bytesOf, checkText, guarded } from "./module_memory.js";

/** The most words that a call of the module returns. */
const ROOM = 4096;
const WORD_SIZE = 16;
const STATE_SIZE = 8;

/** An instance of the module, with room for a text. */
class Machine {
  constructor(instance) {
    this.memory = new ModuleMemory(instance);
    this.state = this.memory.place(STATE_SIZE);
    this.block = this.memory.place(WORD_SIZE * ROOM);
    this.text = this.memory.place(0);
  }

  /** Loads a whole text, and returns its size in bytes. */
  start(text) {
    this.memory.bytes(this.state, STATE_SIZE).fill(0);
    return this.memory.loadAll(text, this.text);
  }

  /** Lets the module write the next words to the block, and returns how many: a full block, or all that are left. */
  next(size) {
    return Number(this.memory.exports.lbk_words(...[this.state, this.text, size, this.block, ROOM].map(BigInt)));
  }

  /**
   * The alternating starts and ends of so many words of the block, each number as two halves. The next call overwrites
   * them.
   */
  halves(count) {
    return new Uint32Array(this.memory.buffer, this.block, 4 * count);
  }
}

/** Columns for the words of a text of this length, which grow as words are added. */
class ColumnsBuilder {
  #length;
  #size = 0;
  #start = new Uint32Array(16);
  #end = new Uint32Array(16);

  constructor(length) {
    this.#length = length;
  }

  /**
   * Adds words, given as alternating starts and ends. Full columns get the room that the text needs if its rest is like
   * its start.
   */
  add(places) {
    const size = this.#size + places.length / 2;
    if (size > this.#start.length) {
      const all = (1.1 * size * this.#length) / places.at(-1);
      this.#grow(Math.max(1.5 * size, Math.min(all, this.#length)));
    }
    const [start, end] = [this.#start, this.#end];
    for (let k = this.#size, from = 0; k < size; k++, from += 2) {
      start[k] = places[from];
      end[k] = places[from + 1];
    }
    this.#size = size;
  }

  #grow(room) {
    const grown = (column) => {
      const larger = new Uint32Array(Math.ceil(room));
      larger.set(column);
      return larger;
    };
    [this.#start, this.#end] = [grown(this.#start), grown(this.#end)];
  }

  finish() {
    return { start: this.#start.subarray(0, this.#size), end: this.#end.subarray(0, this.#size) };
  }
}

export class Words {
  #module;
  #machine;

  constructor(module) {
    this.#module = module;
    this.#startAgain();
  }

  static async load(module = new URL("lbk_words.wasm", import.meta.url)) {
    return new Words(await WebAssembly.compile(await bytesOf(module)));
  }

  wordColumns(text) {
    checkText(text);
    return guarded(() => this.#find(text), () => this.#startAgain());
  }

  words(text) {
    if (typeof text !== "string") throw new TypeError("words need a string");
    return this.#rows(text, this.wordColumns(text));
  }

  *#rows(text, { start, end }) {
    for (let k = 0; k < start.length; k++) yield { word: text.slice(start[k], end[k]), at: start[k] };
  }

  #startAgain() {
    this.#machine = new Machine(new WebAssembly.Instance(this.#module, {}));
  }

  #find(text) {
    const machine = this.#machine;
    const size = machine.start(text);
    const units = new UnitCounter(machine.memory.bytes(machine.text, size), text.length);
    const columns = new ColumnsBuilder(text.length);
    const places = new Uint32Array(2 * ROOM);
    let count;
    do {
      count = machine.next(size);
      const halves = machine.halves(count);
      for (let k = 0; k < 2 * count; k++) places[k] = halves[2 * k];
      const found = places.subarray(0, 2 * count);
      units.convert(found);
      columns.add(found);
    } while (count === ROOM);
    return columns.finish();
  }
}
