/** Lines of a given width, for a text with known breaks. White space at the end of a line hangs: it has no width. */

/** White space that hangs (CSS Text, section 4.1.3): spaces, tabs and other space separators, except no-break spaces. */
const HANGING = /[\t\p{Zs}]*$/u;

/** The end of a line: what has one of the classes CR, LF, NL and BK. */
const LINE_END = /(?:\r\n|[\n\v\f\r\u0085\u2028\u2029])$/;

export function withoutLineEnd(text) {
  return text.replace(LINE_END, "");
}

/** How much of a segment counts for the width where it ends a line. */
export function headLength(segment) {
  const { 0: spaces, index } = HANGING.exec(withoutLineEnd(segment));
  return spaces.includes("\u00a0") ? index + spaces.lastIndexOf("\u00a0") + 1 : index;
}

/**
 * The indexes of the segments with which lines of a paragraph start. `ends` are the places where its segments end,
 * `fits` says of a piece of it whether it is narrow enough. A segment that is too wide has a line of its own.
 */
export function lineStarts(paragraph, ends, fits) {
  const starts = [];
  let guess = 1;
  for (let first = 0; first < ends.length; ) {
    starts.push(first);
    const start = first === 0 ? 0 : ends[first - 1];
    const isFit = (last) => {
      const from = last === 0 ? 0 : ends[last - 1];
      return fits(paragraph.slice(start, from + headLength(paragraph.slice(from, ends[last]))));
    };
    // The last line's number of segments is near, which saves measures.
    let last = Math.min(first + guess, ends.length) - 1;
    if (last > first && !isFit(last)) {
      do last--; while (last > first && !isFit(last));
    } else {
      while (last + 1 < ends.length && isFit(last + 1)) last++;
    }
    guess = last + 1 - first;
    first = last + 1;
  }
  return starts;
}
