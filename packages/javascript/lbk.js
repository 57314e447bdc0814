// Finds where a line of text may break and where it must (UAX #14, Unicode 15.0), in browsers and Node.
//
//     import { breaks, load } from "lbk";
//     await load();
//     for (const { at, kind, rule } of breaks("naïve text")) ..
//
// lbk.wasm does the work. It is proved, and has no imports. This file is tested, not proved: it copies text into the
// module's memory and positions out of it, and converts the offsets of strings to UTF-16 code units.
import { ColumnsBuilder, Machine, ROOM, goOn } from "./machine.js";
import { UnitCounter, bytesOf, checkText, guarded } from "./module_memory.js";

const RULE_NUMBERS = 256;
export const KINDS = ["no", "may", "must"];

export function profileNumber({ profile = 1 } = {}) {
  if (profile !== 1 && profile !== 2) throw new RangeError("profile must be 1 or 2");
  return profile - 1;
}

export class Table {
  #module;
  #machine;
  #labels;

  constructor(module, machine) {
    if (!(machine instanceof Machine)) throw new TypeError("get a Table by load or Table.fromBytes");
    this.#module = module;
    this.#machine = machine;
    this.#labels = Array.from({ length: RULE_NUMBERS }, (_, number) => machine.ruleLabel(number));
  }

  static async fromBytes(saved, module) {
    const bytes = await bytesOf(saved);
    return tableOf(module, (machine) => machine.loadTable(bytes));
  }

  get memorySize() {
    return this.#machine.memory.size;
  }

  ruleLabel(rule) {
    return this.#labels[rule] ?? "";
  }

  ruleText(rule) {
    const number = typeof rule === "string" ? this.#labels.indexOf(rule) : rule;
    return this.ruleLabel(number) && this.#machine.ruleText(number);
  }

  classOf(scalar) {
    if (!Number.isInteger(scalar) || scalar < 0
      || scalar > 0x10ffff) throw new RangeError("a code point must be from 0 to 0x10FFFF");
    return this.#guarded(() => this.#machine.classLabel(scalar));
  }

  breakColumns(text, options) {
    return this.#columns(text, options, (profile) => this.#machine.breaks(text, Machine.startState(profile)).columns);
  }

  positionColumns(text, options) {
    return this.#columns(text, options, (profile) => this.#wholeText(text, profile));
  }

  // (these check their arguments in the call, not in the first step)
  breaks(text, options) {
    return this.#rows(this.breakColumns(text, options));
  }

  positions(text, options) {
    return this.#rows(this.positionColumns(text, options));
  }

  segments(text, options) {
    if (typeof text !== "string") throw new TypeError("segments need a string");
    return this.#pieces(text, this.breaks(text, options));
  }

  *#pieces(text, breaks) {
    let index = 0;
    for (const { at, kind, rule } of breaks) {
      yield { segment: text.slice(index, at), index, kind, rule };
      index = at;
    }
  }

  *#rows({ at, kind, rule }) {
    for (let k = 0; k < at.length; k++) {
      yield { at: at[k], kind: KINDS[kind[k]], rule: this.#labels[rule[k]] };
    }
  }

  /** The breaks from a state on, for the streams in parts.js. */
  [goOn](...words) {
    return this.#guarded(() => this.#machine.breaks(...words));
  }

  /** The columns that `find` returns for a text. */
  #columns(text, options, find) {
    checkText(text);
    const profile = profileNumber(options);
    return this.#guarded(() => find(profile));
  }

  #guarded(action) {
    return guarded(action, () => this.#startAgain());
  }

  #startAgain() {
    const machine = new Machine(new WebAssembly.Instance(this.#module, {}));
    machine.loadTable(this.#machine.tableBytes);
    this.#machine = machine;
  }

  /** All positions, with the whole text in memory. */
  #wholeText(text, profile) {
    const machine = this.#machine;
    const size = machine.memory.loadAll(text, machine.text);
    const units = new UnitCounter(machine.memory.bytes(machine.text, size), text.length);
    const columns = new ColumnsBuilder(text.length, size + 1);
    machine.savedState = Machine.startState(profile);
    let count;
    do {
      count = machine.find("lbk_positions", size, ROOM);
      const block = machine.columns(count, 0);
      units.convert(block.at);
      columns.add(block);
    } while (count === ROOM);
    return columns.finish();
  }
}

/** A table of an instance of the module, which `fill` fills. */
async function tableOf(module = new URL("lbk.wasm", import.meta.url), fill) {
  const compiled = await WebAssembly.compile(await bytesOf(module));
  const machine = new Machine(await WebAssembly.instantiate(compiled, {}));
  fill(machine);
  return new Table(compiled, machine);
}

/** The built-in table, and what makes it. */
let [builtIn, loading] = [];

export function load(module) {
  loading ??= tableOf(module, (machine) => machine.fillTable()).then((table) => (builtIn = table), (error) => {
    loading = undefined;
    throw error;
  });
  return loading;
}

/** The built-in table, for the calls that are given no other. */
export function loaded() {
  if (builtIn === undefined) throw new Error("the module is not loaded: await load() first");
  return builtIn;
}

export const breaks = (text, options) => loaded().breaks(text, options);
export const positions = (text, options) => loaded().positions(text, options);
export const segments = (text, options) => loaded().segments(text, options);
export const breakColumns = (text, options) => loaded().breakColumns(text, options);
export const positionColumns = (text, options) => loaded().positionColumns(text, options);
export const classOf = (codePoint) => loaded().classOf(codePoint);
export const ruleLabel = (rule) => loaded().ruleLabel(rule);
export const ruleText = (rule) => loaded().ruleText(rule);
