/** Texts cut into chunks, for search and retrieval. */
import type { Options, Table } from "./lbk.js";
import type { Words } from "./words.js";

/** The limits of a chunk, in UTF-16 code units of a string or bytes of a `Uint8Array`. */
export interface ChunkOptions extends Options {
  /** At most this many units or bytes, 1 or more; the default is 500. */
  readonly most?: number;
  /** At most this many words, 1 or more; the default is any number. */
  readonly words?: number;
  /**
   * A chunk may end early, at a required break, once this much of it is in no earlier chunk; the default is half of
   * `most`.
   */
  readonly least?: number;
  /**
   * The next chunk repeats at most this much of this one, and at most half of it. At most half of `most`; the default
   * is 0.
   */
  readonly overlap?: number;
}

/** A part of a text that ends at a break outside words. */
export interface Chunk<T extends string | Uint8Array = string> {
  /** Its offset, in UTF-16 code units of a string or bytes of a `Uint8Array`. */
  readonly start: number;
  /** The offset of its end. */
  readonly end: number;
  readonly text: T;
  /** How many words it has. */
  readonly words: number;
  /** Whether a line may or must end at its end, and the rule that decided there. */
  readonly kind: "may" | "must";
  readonly rule: string;
  /** Whether it exceeds the limits, because it has no cut within them. */
  readonly alone: boolean;
}

/** Cuts texts into chunks, with a table and the words of UAX #29. */
export class Chunker {
  constructor(table: Table, words: Words);

  /** With the built-in table. */
  static load(): Promise<Chunker>;

  /**
   * The chunks of a text, in order. Without overlap the chunks, joined, are the text. The modules hold the whole text.
   * @throws RangeError if a limit is out of range; it says which.
   */
  chunks<T extends string | Uint8Array>(text: T, options?: ChunkOptions): IterableIterator<Chunk<T>>;
}
