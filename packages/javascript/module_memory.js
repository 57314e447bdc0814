// What the modules share: sources of bytes, their memory, and the offsets of strings.

const isNode = typeof process === "object" && process.versions?.node !== undefined;

/** The bytes of a `Source` (lbk.d.ts). */
export async function bytesOf(source) {
  if (ArrayBuffer.isView(source)) {
    return new Uint8Array(source.buffer, source.byteOffset, source.byteLength);
  }
  if (source instanceof ArrayBuffer) return new Uint8Array(source);
  if (!(source instanceof Response || source instanceof URL || typeof source === "string")) {
    throw new TypeError("bytes are required, or a Response, a URL or a string that names them");
  }
  const local = isNode && (await import("./local_files.js")).bytesAt(source);
  if (local) return local;
  const response = source instanceof Response ? source : await fetch(source);
  if (!response.ok) {
    throw new Error(`${response.url}: ${response.status} ${response.statusText}`);
  }
  return new Uint8Array(await response.arrayBuffer());
}

const PAGE = 65536;

/** The end of a piece of a string of at most so many units. It does not split a pair of surrogates. */
function endOfUnits(text, from, size) {
  const end = from + size;
  if (end >= text.length) return text.length;
  return (text.charCodeAt(end - 1) & 0xfc00) === 0xd800 ? end - 1 : end;
}

export function isContinuation(byte) {
  return (byte & 0xc0) === 0x80;
}

/**
 * The end of a piece of at most so many bytes. It does not split a scalar, which has at most three continuation bytes.
 */
function endOfBytes(bytes, from, size) {
  const most = from + size;
  if (most >= bytes.length) return bytes.length;
  let end = most;
  while (end > most - 3 && isContinuation(bytes[end])) end--;
  return isContinuation(bytes[end]) ? most : end;
}

export function isAscii(text) {
  return !/[^\0-\x7f]/.test(text);
}

/** An instance of a module without imports, and its memory, which is allocated front to back. */
export class ModuleMemory {
  #memory;
  #end;
  #encoder = new TextEncoder();

  constructor(instance) {
    this.exports = instance.exports;
    this.#memory = instance.exports.memory;
    this.#end = Number(instance.exports.__heap_base.value);
  }

  /** Allocates so many bytes for the caller, and returns their address. */
  place(size) {
    const start = (this.#end + 15) & ~15;
    this.#end = start + size;
    this.#reserve(this.#end);
    return start;
  }

  get size() {
    return this.#memory.buffer.byteLength;
  }

  get buffer() {
    return this.#memory.buffer;
  }

  bytes(start, size) {
    return new Uint8Array(this.#memory.buffer, start, size);
  }

  #reserve(end) {
    const pages = Math.ceil((end - this.size) / PAGE);
    if (pages <= 0) return;
    try {
      this.#memory.grow(BigInt(pages));
    } catch (error) {
      if (error instanceof TypeError) this.#memory.grow(pages);
      else throw error;
    }
  }

  /**
   * Copies the next bytes of a text, or of an ASCII string, to the end of the allocated memory, and returns how many.
   * Returns nothing if the string has other characters.
   */
  loadBytes(text, from, start, size) {
    this.#reserve(start + size);
    if (typeof text === "string") {
      const piece = text.slice(from, from + size);
      const { read, written } = this.#encoder.encodeInto(piece, this.bytes(start, size));
      return read === piece.length && written === read ? read : undefined;
    }
    const piece = text.subarray(from, endOfBytes(text, from, size));
    this.bytes(start, piece.length).set(piece);
    return piece.length;
  }

  /** In the same way copies the next units of a string, of at most so many bytes. */
  loadUnits(text, from, start, size) {
    const end = endOfUnits(text, from, size / 2);
    this.#reserve(start + size);
    const units = new Uint16Array(this.#memory.buffer, start, end - from);
    for (let k = from; k < end; k++) units[k - from] = text.charCodeAt(k);
    return end - from;
  }

  /** In the same way copies a whole text as UTF-8, and returns its size in bytes. */
  loadAll(text, start) {
    const most = typeof text === "string" ? 3 * text.length : text.length;
    this.#reserve(start + most);
    if (typeof text === "string") return this.#encoder.encodeInto(text, this.bytes(start, most)).written;
    this.bytes(start, text.length).set(text);
    return text.length;
  }
}

/** The greatest offset that columns can hold. */
const MOST_UNITS = 0xffffffff;

export function checkText(text) {
  // (an array of another window or context is not an instance of this one's class)
  if (typeof text !== "string" && Object.prototype.toString.call(text) !== "[object Uint8Array]") {
    throw new TypeError("a text must be a string or a Uint8Array");
  }
  if (text.length > MOST_UNITS) throw new RangeError(`a text has at most ${MOST_UNITS} bytes or units`);
}

/**
 * Returns the result of an action. If it fails, an instance may have stopped for ever, so `startAgain` makes a new one.
 */
export function guarded(action, startAgain) {
  try {
    return action();
  } catch (error) {
    startAgain();
    if (!(error instanceof WebAssembly.RuntimeError)) throw error;
    throw new Error("the module stopped during a call", { cause: error });
  }
}

/** How many UTF-16 code units each byte of UTF-8 begins: a continuation byte none, the first of four bytes two. */
const UNITS_OF_BYTE = Uint8Array.from({ length: 256 }, (_, byte) => (byte < 0x80 || byte >= 0xc0) + (byte >= 0xf0));

/** Converts rising byte offsets in a text to units. */
export class UnitCounter {
  #bytes;
  #isPlain;
  #at = 0;
  #units = 0;

  /** How many units of the text the bytes are. */
  constructor(bytes, units) {
    this.#bytes = bytes;
    this.#isPlain = bytes.length === units;
  }

  /** Replaces rising byte offsets by offsets in units. If each byte is a unit, they are the same. */
  convert(places) {
    if (this.#isPlain) return;
    const bytes = this.#bytes;
    let [at, units] = [this.#at, this.#units];
    for (let k = 0; k < places.length; k++) {
      for (const last = places[k]; at < last; at++) units += UNITS_OF_BYTE[bytes[at]];
      places[k] = units;
    }
    this.#at = at;
    this.#units = units;
  }
}
