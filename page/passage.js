/** The part of a text that columns show: all of a short one, or about so many units around a place. */

const MOST_UNITS = 2000;

/** The places in a paragraph at which its segments end, from one place to another. */
function endsOf(decided, index, from, to) {
  return decided.positionsIn(index, from, to).filter(({ at, kind }) => kind !== "no" && at > from).map(({ at }) => at);
}

function partOf(decided, index, from, to) {
  const ends = endsOf(decided, index, from, to).map((it) => it - from);
  if (ends.at(-1) !== to - from) ends.push(to - from);
  return { text: decided.paragraphText(index).slice(from, to), ends };
}

/** A part of a long paragraph, which starts and ends at breaks where it has some. */
function partAround(decided, index, place) {
  const { length } = decided.paragraphs[index];
  const start = Math.floor(place / MOST_UNITS) * MOST_UNITS;
  const from = start === 0 ? 0 : endsOf(decided, index, start, start + MOST_UNITS)[0] ?? start;
  const to = Math.min(length, start + MOST_UNITS);
  const past = to === length ? to : endsOf(decided, index, to, Math.min(length, to + MOST_UNITS))[0] ?? to;
  return { from, part: partOf(decided, index, from, past) };
}

/** The passage with the position at a place, as ColumnsView shows it. */
export function passageAt(decided, place) {
  const isWhole = decided.text.length <= MOST_UNITS;
  const first = isWhole ? 0 : decided.indexAt(Math.max(0, place - 1));
  const offset = decided.startOf(first);
  if (decided.paragraphs[first].length > MOST_UNITS) {
    const { from, part } = partAround(decided, first, place - offset);
    return { text: part.text, offset: offset + from, paragraphs: [part] };
  }
  const paragraphs = [];
  let size = 0;
  for (let index = first; index < decided.paragraphs.length; index++) {
    const { length } = decided.paragraphs[index];
    if (size + length > MOST_UNITS) break;
    paragraphs.push(partOf(decided, index, 0, length));
    size += length;
  }
  return { text: decided.text.slice(offset, offset + size), offset, paragraphs };
}
