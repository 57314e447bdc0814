/** Finds where a line of text may break and where it must (UAX #14, Unicode 15.0, rules LB2 to LB31). */

/** The verdict at a position: a line does not break there, may break there, or must. */
export type Kind = "no" | "may" | "must";

/** A position in a text, and the rule that decided it. */
export interface Position {
  /** The offset: UTF-16 code units from the start of a string, bytes from the start of a `Uint8Array`. */
  readonly at: number;
  readonly kind: Kind;
  /** The number of the rule without `LB`, such as "8a". */
  readonly rule: string;
}

/** A position where a line may or must end. */
export interface Break extends Position {
  readonly kind: "may" | "must";
}

/** The text between two breaks, with the break that ends it. */
export interface Segment {
  readonly segment: string;
  /** Its offset, in UTF-16 code units. */
  readonly index: number;
  readonly kind: "may" | "must";
  readonly rule: string;
}

/** Positions as typed arrays of the same length, one element for each. */
export interface Columns {
  /** UTF-16 code units of a string, bytes of a `Uint8Array`. */
  readonly at: Uint32Array;
  /** 0 no, 1 may, 2 must. */
  readonly kind: Uint8Array;
  /** The number of a rule, for {@link Table.ruleLabel}. */
  readonly rule: Uint8Array;
}

export interface Options {
  /** 1, the default, has rule 15 of Unicode 15.0; 2 has rules 15a and 15b instead. */
  readonly profile?: 1 | 2;
}

/** Text: a string (lone surrogates are read as U+FFFD), or UTF-8 bytes, ill-formed or not. */
export type Text = string | Uint8Array;

/** Bytes, or where to get them. A `string` is a URL; in Node one without a scheme such as `https://` is a path. */
export type Source = ArrayBuffer | ArrayBufferView | Response | URL | string;

/**
 * Loads the module, with the properties of Unicode 15.0 in it. Await it once, before the first call of the functions
 * below; later calls return the same table.
 * @param module The module `lbk.wasm`; the default is the one next to this file.
 */
export function load(module?: Source): Promise<Table>;

/** The calls of the table that {@link load} returns. @throws Error before it is loaded. */
export function breaks(text: Text, options?: Options): IterableIterator<Break>;
export function positions(text: Text, options?: Options): IterableIterator<Position>;
export function segments(text: string, options?: Options): IterableIterator<Segment>;
export function breakColumns(text: Text, options?: Options): Columns;
export function positionColumns(text: Text, options?: Options): Columns;
export function ruleLabel(rule: number): string;
export function ruleText(rule: number | string): string;
export function classOf(codePoint: number): string;

/** The properties of all code points, with the module that uses them. */
export class Table {
  private constructor();

  /**
   * A table of your own files, which the library saved or packed in another language. The module checks its digest.
   * @param saved The bytes of the table, or where they are.
   * @param module The module `lbk.wasm`; the default is the one next to this file.
   * @throws RangeError if the bytes are not a whole table of this version.
   */
  static fromBytes(saved: Source, module?: Source): Promise<Table>;

  /**
   * The breaks of a text, in order. The last is the text's end; an empty text has none. The module holds 256 KB of a
   * text at a time, or more if 256 KB have no break.
   */
  breaks(text: Text, options?: Options): IterableIterator<Break>;
  /**
   * All positions of a text, with its start and its end, each with the rule that decided. The module holds the whole
   * text.
   */
  positions(text: Text, options?: Options): IterableIterator<Position>;
  /** The pieces of a string between its breaks. */
  segments(text: string, options?: Options): IterableIterator<Segment>;
  /** The breaks as columns, the fastest form. */
  breakColumns(text: Text, options?: Options): Columns;
  /** All positions as columns. */
  positionColumns(text: Text, options?: Options): Columns;
  /** The label of a rule without `LB`, such as "8a"; "" for a number that no rule has. */
  ruleLabel(rule: number): string;
  /** What a rule says, in one line, by its number or label; "" for an unknown rule. */
  ruleText(rule: number | string): string;
  /**
   * The line breaking class of a code point, such as "AL", as rule LB1 resolves it (UAX #14, section 5.1); "" for a
   * surrogate.
   * @throws RangeError if the number is not a code point.
   */
  classOf(codePoint: number): string;
  /** The size of the module's memory in bytes. */
  readonly memorySize: number;
}
