/** The words of a text: UAX #29, section 4, with the word boundaries, letters and numbers of Unicode 18.0. */
import type { Source, Text } from "./lbk.js";

/** A word of a string. */
export interface Word {
  readonly word: string;
  /** Its offset, in UTF-16 code units. */
  readonly at: number;
}

/** Words as typed arrays of the same length: UTF-16 code units of a string, bytes of a `Uint8Array`. */
export interface WordColumns {
  readonly start: Uint32Array;
  /** The offset of each word's end. */
  readonly end: Uint32Array;
}

/** The module that finds words. It needs no table. */
export class Words {
  private constructor();

  /** @param module The module `lbk_words.wasm`; the default is the one next to this file. */
  static load(module?: Source): Promise<Words>;

  /** The pieces between word boundaries that have a letter or a number, in order. */
  words(text: string): IterableIterator<Word>;
  /** The same as columns. The module holds the whole text. */
  wordColumns(text: Text): WordColumns;
}
