/** What decides at a position, in words: the kind, the rule, and the classes of the characters on both sides. */
import { characterAt, characterBefore } from "./characters.js";
import { CLASSES } from "./classes.js";
import { element } from "./elements.js";
import { SAYS, codeOf, hiddenName, signOf } from "./notation.js";

/** After these classes a mark counts as a character of its own (rule LB10). */
const HARD = ["BK", "CR", "LF", "NL", "SP", "ZW"];
const MARKS = ["CM", "ZWJ"];

/** A character in quotes, in isolation from the direction of what is around it, or its name. */
function characterElement(character) {
  const name = hiddenName(character);
  if (name) return name === "·" ? "a space" : name;
  return element("bdi", "", `“${/^\p{M}/u.test(character) ? "\u25cc" : ""}${character}”`);
}

export class AnswerView {
  #panel;
  #decided;
  #table;

  /** The table gives the line breaking class of a code point, and what a rule says. */
  constructor(panel, decided, table) {
    this.#panel = panel;
    this.#decided = decided;
    this.#table = table;
  }

  /** Says what decides at a position, or at two. */
  show(...positions) {
    this.#panel.replaceChildren(...positions.filter(Boolean).map((it) => this.#answer(it)));
  }

  #answer({ at, kind, rule }) {
    const text = this.#decided.text;
    const [before, after] = [characterBefore(text, at), characterAt(text, at)];
    const [one, other] = [this.#side(before, "the start of the text"), this.#side(after, "the end of the text")];
    const sign = element("span", `sign ${kind}`, signOf(kind));
    const what = element("p", "what", sign, element("strong", "", ` ${SAYS[kind]}`), " between ", ...one, " and ",
      ...other, ".");
    const why = element("p", "why", element("span", "rule", `Rule LB${rule}`), ` ${this.#table.ruleText(rule)}`);
    const where = element("span", "where", `At offset ${at} (UTF-16 units).`);
    return element("div", "answer", what, why, element("p", "classes", ...this.#classes(at), where));
  }

  #side(character, otherwise) {
    return character ? [characterElement(character), element("span", "code", ` (${codeOf(character)})`)] : [otherwise];
  }

  #classes(at) {
    const text = this.#decided.text;
    const [before, after] = [characterBefore(text, at), characterAt(text, at)];
    const found = [];
    if (before) found.push("Before: ", this.#inWords(this.#classBefore(at)), ". ");
    if (after) found.push("After: ", this.#classAfter(at), ". ");
    return found;
  }

  #inWords(name) {
    return `${name}, ${CLASSES[name] ?? "a class without a name"}`;
  }

  #class(character) {
    return character && this.#table.classOf(character.codePointAt(0));
  }

  /** Whether the character at a place is a mark that joins the one before it (rule LB9). */
  #joins(place) {
    const text = this.#decided.text;
    const before = this.#class(characterBefore(text, place));
    return Boolean(before) && MARKS.includes(this.#class(characterAt(text, place))) && !HARD.includes(before);
  }

  /** The class of what ends before a place: of a character with its marks, that of the character. */
  #classBefore(place) {
    const text = this.#decided.text;
    let head = place - characterBefore(text, place).length;
    while (this.#joins(head)) head -= characterBefore(text, head).length;
    return this.#standing(this.#class(characterAt(text, head)));
  }

  #classAfter(place) {
    const found = this.#class(characterAt(this.#decided.text, place));
    return this.#joins(place) ? `${this.#inWords(found)}, which joins what is before it`
      : this.#inWords(this.#standing(found));
  }

  /** A mark that joins nothing is read as a letter (rule LB10). */
  #standing(found) {
    return MARKS.includes(found) ? "AL" : found;
  }
}
