/** Texts that arrive in pieces, or that are cut at required breaks. */
import type { Break, Options, Table, Text } from "./lbk.js";

/**
 * The breaks of a text that arrives in pieces, which may be cut anywhere. The call that takes the piece which settles a
 * break returns it, with its offset from the text's start. The stream holds the text since the last break, and goes
 * over it again with each piece.
 */
export class Stream {
  /** @param options The profile; and a table of your own, if it is not to be the one of `load`. */
  constructor(options?: Options & { readonly table?: Table });

  /**
   * Takes the next piece, and returns the breaks that it settles.
   * @throws TypeError if some pieces are strings and others bytes.
   * @throws Error after the end.
   */
  feed(piece: Text): Break[];
  /**
   * Ends the text, and returns the breaks that are left.
   * @throws Error after the end.
   */
  finish(): Break[];
}

/**
 * The first offset at or after `at` where a part of a text may begin: one with a required break, or the text's end. The
 * breaks of the parts are those of the text, except for the rule at the end of a part.
 * @throws RangeError if `at` is not a whole number from 0 on.
 */
export function cut(text: Text, at: number, table?: Table): number;

/** The last such offset at or before `at`: no break after it depends on the text before it. */
export function cutBefore(text: Text, at: number, table?: Table): number;
