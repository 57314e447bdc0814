/** The notation of the published break tests, and names of characters that are not seen. */

const SIGNS = { no: "×", may: "÷", must: "!" };
const HIDDEN = new Map([
  ["\t", "TAB"], ["\n", "LF"], ["\v", "VT"], ["\f", "FF"], ["\r", "CR"], ["\u0085", "NEL"], ["\u00a0", "NBSP"],
  ["\u00ad", "SHY"], ["\u034f", "CGJ"], ["\u200b", "ZWSP"], ["\u200c", "ZWNJ"], ["\u200d", "ZWJ"], ["\u200e", "LRM"],
  ["\u200f", "RLM"], ["\u2007", "FIGSP"], ["\u2028", "LS"], ["\u2029", "PS"], ["\u202f", "NNBSP"], ["\u2060", "WJ"],
  ["\u3000", "IDSP"], ["\ufeff", "ZWNBSP"], [" ", "·"],
]);

/** What each kind of position is, in words. */
export const SAYS = { no: "No break", may: "A line may break", must: "A line must end" };

export function signOf(kind) {
  return SIGNS[kind];
}

/** The name of a character that is not seen, or undefined. */
export function hiddenName(character) {
  return HIDDEN.get(character);
}

/** A character as U+0061. */
export function codeOf(character) {
  return `U+${character.codePointAt(0).toString(16).toUpperCase().padStart(4, "0")}`;
}

/** A line of the break test, which tells no required break from others: a sign for each position, and then the rules. */
export function testLine(text, positions) {
  const words = [];
  const rules = [];
  for (const { at, kind, rule } of positions) {
    words.push(kind === "no" ? "×" : "÷");
    rules.push(rule);
    const code = text.codePointAt(at);
    if (code !== undefined) words.push(code.toString(16).toUpperCase().padStart(4, "0"));
  }
  return `${words.join(" ")}\t# ${rules.join(" ")}`;
}
