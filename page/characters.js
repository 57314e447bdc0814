/** Characters of a string, by their places in UTF-16 units. */

/** The character at a place of a text, or an empty string at its end. */
export function characterAt(text, place) {
  const code = text.codePointAt(place);
  return code === undefined ? "" : String.fromCodePoint(code);
}

/** The character that ends before a place of a text, or an empty string at its start. */
export function characterBefore(text, place) {
  const found = characterAt(text, place - 2);
  return found.length === 2 ? found : text.charAt(place - 1);
}
