// An instance of lbk.wasm with a table, and the columns that it returns.
import { ModuleMemory, isAscii } from "./module_memory.js";

/** The most breaks or positions that a call of the module returns. */
export const ROOM = 2048;
/** How many bytes of a text the module holds at once when it looks for breaks. */
const WINDOW = 262144;
/** The room of columns for positions before any is found. */
const MOST_EXPECTED = 1 << 22;
/** The size of an lbk_table of include/lbk.h in bytes. */
const TABLE_SIZE = 16 + 672 + 0x110000;
const STATE_SIZE = 16;
const POSITION_SIZE = 16;
/** The size of an lbk_text in bytes; names are shorter. */
const TEXT_SIZE = 96;
const COLUMNS = ["at", "kind", "rule"];
/** The name of the member of Table that parts.js uses. */
export const goOn = Symbol("goOn");

/** The columns of positions of a text of this length, which grow as positions are added. */
export class ColumnsBuilder {
  #length;

  constructor(length, room = 16) {
    this.#length = length;
    this.size = 0;
    this.at = new Uint32Array(room);
    this.kind = new Uint8Array(room);
    this.rule = new Uint8Array(room);
  }

  /** Adds the columns of a block. Full columns get the room that the text needs if its rest is like its start. */
  add(block) {
    const end = this.size + block.at.length;
    if (end > this.at.length) {
      const all = (1.2 * end * this.#length) / block.at.at(-1);
      this.#grow(Math.ceil(Math.max(1.25 * end, Math.min(MOST_EXPECTED, all))));
    }
    for (const name of COLUMNS) this[name].set(block[name], this.size);
    this.size = end;
  }

  #grow(room) {
    for (const name of COLUMNS) {
      const grown = new this[name].constructor(room);
      grown.set(this[name]);
      this[name] = grown;
    }
  }

  finish() {
    const { at, kind, rule, size } = this;
    return { at: at.subarray(0, size), kind: kind.subarray(0, size), rule: rule.subarray(0, size) };
  }
}

/** An instance of the module with a table in its memory, and room for a text. */
export class Machine {
  constructor(instance) {
    const memory = new ModuleMemory(instance);
    this.memory = memory;
    this.table = memory.place(TABLE_SIZE);
    this.state = memory.place(STATE_SIZE);
    this.block = memory.place(POSITION_SIZE * ROOM);
    this.at = memory.place(4 * ROOM);
    this.kind = memory.place(ROOM);
    this.rule = memory.place(ROOM);
    this.text = memory.place(WINDOW);
    // (the module's type of pointers and sizes)
    this.big = { room: BigInt(ROOM) };
    for (const name of ["table", "state", "block", "at", "kind", "rule", "text"]) this.big[name] = BigInt(this[name]);
  }

  /** The bytes of the table, which no call of the module changes. */
  get tableBytes() {
    return this.memory.bytes(this.table, TABLE_SIZE);
  }

  /** Fills the table with the built-in properties. */
  fillTable() {
    this.memory.exports.lbk_unicode(this.big.table);
  }

  /** Writes a table, packed or not, to memory that is still zero. */
  loadTable(saved) {
    if (saved.length === TABLE_SIZE) this.tableBytes.set(saved);
    else this.memory.exports.lbk_unpack(this.big.table, this.big.text, BigInt(this.memory.loadAll(saved, this.text)));
    if (this.memory.exports.lbk_check(this.big.table) === 0) {
      throw new RangeError("these bytes are not an intact table of this version");
    }
  }

  /** The text that a call of the module writes to the block, without the zeros at its end. */
  #text(write) {
    write(this.big.block);
    const text = this.memory.bytes(this.block, TEXT_SIZE);
    return String.fromCharCode(...text.subarray(0, text.indexOf(0)));
  }

  ruleLabel(number) {
    return this.#text((to) => this.memory.exports.lbk_label(to, number));
  }

  ruleText(number) {
    return this.#text((to) => this.memory.exports.lbk_rule_text(to, number));
  }

  classLabel(scalar) {
    return this.#text((to) => this.memory.exports.lbk_class(to, this.big.table, scalar));
  }

  /** The state at the start of a text in a profile. */
  static startState(profile) {
    const state = new Uint8Array(STATE_SIZE);
    state[10] = profile;
    return state;
  }

  /** Lets a call write the next positions of the loaded text to the block, at most `most`, and returns how many. */
  find(call, size, room) {
    const { table, state, text, block } = this.big;
    return Number(this.memory.exports[call](table, state, text, BigInt(size), block, BigInt(room)));
  }

  /** The columns of the first positions of the block, with offsets from `from` on. The next call overwrites them. */
  columns(count, from) {
    const { block, at, kind, rule, room } = this.big;
    this.memory.exports.lbk_columns(block, BigInt(count), from, at, room, kind, room, rule, room);
    const { buffer } = this.memory;
    return {
      at: new Uint32Array(buffer, this.at, count),
      kind: new Uint8Array(buffer, this.kind, count),
      rule: new Uint8Array(buffer, this.rule, count),
    };
  }

  /** A copy of the state, to restore it later. */
  get savedState() {
    return this.memory.bytes(this.state, STATE_SIZE).slice();
  }

  set savedState(saved) {
    this.memory.bytes(this.state, STATE_SIZE).set(saved);
  }

  /** How many bytes or units of the window were taken. The next window begins after them. */
  dropTaken() {
    const state = new DataView(this.memory.buffer, this.state);
    const taken = state.getUint32(0, true);
    state.setUint32(0, 0, true);
    return taken;
  }

  get hasEnded() {
    return this.memory.bytes(this.state, STATE_SIZE)[11] !== 0;
  }

  /**
   * The breaks from a state on, with a window of the text in memory at a time: of bytes, of a string's ASCII, or of its
   * units. If the text goes on, its end is no break. With the state at `taken`, the text before it is not needed again.
   */
  breaks(text, start, goesOn = false) {
    const columns = new ColumnsBuilder(text.length);
    this.savedState = start;
    // (the module reads ASCII faster as bytes)
    let inUnits = typeof text === "string" && !isAscii(text.slice(0, WINDOW));
    let [from, size, room] = [0, WINDOW, ROOM];
    for (;;) {
      const loaded = this.memory[inUnits ? "loadUnits" : "loadBytes"](text, from, this.text, size);
      if (loaded === undefined) {
        inUnits = true;
        continue;
      }
      const isAll = from + loaded === text.length;
      const window = { call: inUnits ? "lbk_breaks_utf16" : "lbk_breaks", from, size: loaded,
        isLast: isAll && !goesOn };
      const count = this.#windowBreaks(window, room, columns);
      if (this.hasEnded) return { columns: columns.finish(), taken: text.length, state: this.savedState };
      const taken = this.dropTaken();
      from += taken;
      // If no block was full, ask for fewer breaks; if the window has no break except at its end, enlarge it.
      room = taken > 0 || count < 2 ? ROOM : count - 1;
      if (taken > 0 || count >= 2) continue;
      if (isAll) return { columns: columns.finish(), taken: from, state: this.savedState };
      size *= 2;
    }
  }

  /**
   * The breaks of a window in full blocks, and how many the last call found. What is left also depends on what follows,
   * unless the text ends there.
   */
  #windowBreaks({ call, from, size, isLast }, room, columns) {
    let count;
    do {
      const before = isLast ? null : this.savedState;
      count = this.find(call, size, room);
      if (before && (count < room || this.hasEnded)) {
        this.savedState = before;
        break;
      }
      columns.add(this.columns(count, from));
    } while (count === room);
    return count;
  }
}
