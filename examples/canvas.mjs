// Lays out a text in lines that fit into a canvas, and draws them:
//
//     import { breaks, load } from "lbk";
//     import { draw } from "./canvas.mjs";
//     await load();
//     draw(canvas.getContext("2d"), text, breaks(text), 300);

/** What hangs at the end of a line, and has no width there: spaces and the line end. */
const HANGING = /[ \n\r\v\f\u0085\u2028\u2029]+$/;

/** The lines of a text that are at most `width` pixels wide in the font of a context, each with its start. A segment
 * that is wider has a line of its own. */
export function* lines(context, text, breaks, width) {
  const content = (start, end) => text.slice(start, end).replace(HANGING, "");
  let start = 0;
  let fits = 0;
  for (const { at, kind } of breaks) {
    if (start < fits && context.measureText(content(start, at)).width > width) {
      yield { start, text: content(start, fits) };
      start = fits;
    }
    fits = at;
    if (kind === "must") {
      yield { start, text: content(start, fits) };
      start = fits;
    }
  }
}

/** Draws the lines below one another, from a place on, and returns them. */
export function draw(context, text, breaks, width, { left = 0, top = 0, height = 20 } = {}) {
  const found = [...lines(context, text, breaks, width)];
  context.textBaseline = "top";
  found.forEach((line, k) => context.fillText(line.text, left, top + k * height));
  return found;
}
