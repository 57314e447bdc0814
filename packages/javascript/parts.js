// Texts that arrive in pieces, or that are cut at required breaks.
//
//     import { Stream } from "lbk/parts";
//     const stream = new Stream();
//     for await (const piece of pieces) for (const { at, kind, rule } of stream.feed(piece)) ..
//     for (const { at, kind, rule } of stream.finish()) ..
//
// The module decides. This file holds the text that waits for more.
import { KINDS, loaded, profileNumber } from "./lbk.js";
import { Machine, goOn } from "./machine.js";
import { checkText, isContinuation } from "./module_memory.js";

const MUST = 2;
/** How many units or bytes on each side of an offset are searched for a cut at first. */
const NEAR = 1024;
/** The most units or bytes of a scalar. */
const LONGEST = 4;

/** A part of a string, or of bytes without copying them. */
export function piece(text, from, to) {
  return typeof text === "string" ? text.slice(from, to) : text.subarray(from, to);
}

/** The end of the scalars of a text that are complete, whatever follows it. */
function endOfScalars(text) {
  const end = text.length;
  if (typeof text === "string") return (text.charCodeAt(end - 1) & 0xfc00) === 0xd800 ? end - 1 : end;
  let lead = end - 1;
  while (lead >= 0 && lead > end - 4 && isContinuation(text[lead])) lead--;
  const size = lead < 0 || text[lead] < 0xc0 ? 1 : 2 + (text[lead] >= 0xe0) + (text[lead] >= 0xf0);
  return lead + size > end ? lead : end;
}

/** Joins two strings, or two arrays of bytes. */
function joined(front, back) {
  if (typeof front === "string") return front + back;
  const bytes = new Uint8Array(front.length + back.length);
  bytes.set(front);
  bytes.set(back, front.length);
  return bytes;
}

/** The breaks of a text that arrives in pieces. */
export class Stream {
  #table;
  #state;
  /** The text that is not settled, the state before it, and how many units or bytes came before it. */
  #rest;
  #before = 0;
  #hasEnded = false;

  constructor({ table = loaded(), ...options } = {}) {
    if (typeof table?.[goOn] !== "function") throw new TypeError("a Stream needs a Table");
    this.#table = table;
    this.#state = Machine.startState(profileNumber(options));
  }

  feed(more) {
    this.#checkOpen();
    checkText(more);
    if (this.#rest !== undefined && typeof more !== typeof this.#rest) {
      throw new TypeError("all pieces of a stream must be strings, or all must be Uint8Arrays");
    }
    const text = this.#rest === undefined ? more : joined(this.#rest, more);
    return this.#take(text, endOfScalars(text), true);
  }

  finish() {
    this.#checkOpen();
    const found = this.#rest === undefined ? [] : this.#take(this.#rest, this.#rest.length, false);
    this.#hasEnded = true;
    return found;
  }

  #checkOpen() {
    if (this.#hasEnded) throw new Error("the stream has ended");
  }

  /** The breaks that the text settles up to an offset. */
  #take(text, end, goesOn) {
    const { columns, taken, state } = this.#table[goOn](piece(text, 0, end), this.#state, goesOn);
    const before = this.#before;
    this.#rest = text.slice(taken);
    this.#before += taken;
    this.#state = state;
    const { kind, rule } = columns;
    return Array.from(columns.at, (at, k) =>
      ({ at: before + at, kind: KINDS[kind[k]], rule: this.#table.ruleLabel(rule[k]) }));
  }
}

function checkPlace(at) {
  if (!Number.isInteger(at) || at < 0) throw new RangeError("an offset must be a whole number of 0 or more");
}

/** The offsets inside a part of a text with a required break, whatever is before and after the part. */
function lineEnds(table, text, from, to) {
  const { at, kind } = table.breakColumns(piece(text, from, to));
  return [...at].filter((place, k) => kind[k] === MUST && from + place < to).map((place) => from + place);
}

export function cut(text, at, table = loaded()) {
  checkText(text);
  checkPlace(at);
  if (at === 0 || at >= text.length) return Math.min(at, text.length);
  const from = Math.max(at - LONGEST, 0);
  for (let size = NEAR; ; size *= 2) {
    const to = Math.min(at + size, text.length);
    const found = lineEnds(table, text, from, to).find((it) => it >= at);
    if (found !== undefined || to === text.length) return found ?? to;
  }
}

export function cutBefore(text, at, table = loaded()) {
  checkText(text);
  checkPlace(at);
  if (at >= text.length) return text.length;
  for (let size = NEAR; ; size *= 2) {
    const from = Math.max(at - size, 0);
    const found = lineEnds(table, text, from, Math.min(at + LONGEST, text.length)).findLast((it) => it <= at);
    if (found !== undefined || from === 0) return found ?? 0;
  }
}
