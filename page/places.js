/** Where the signs between letters are, measured from the letters that the browser laid out, in either direction. */

/** How many pixels boxes that touch may be apart. */
const NEAR = 1;

function isNear(one, other) {
  return Math.abs(one - other) < NEAR;
}

function isOneLine(one, other) {
  return Boolean(one && other) && Math.abs(one.top - other.top) < one.height / 2;
}

/** The direction in which a box follows the one before it: undefined where they don't touch or are on different
 * lines. */
function following(one, other) {
  if (!isOneLine(one, other)) return undefined;
  if (isNear(one.right, other.left)) return "ltr";
  return isNear(one.left, other.right) ? "rtl" : undefined;
}

function start(box, direction) {
  return direction === "ltr" ? box.left : box.right;
}

function end(box, direction) {
  return direction === "ltr" ? box.right : box.left;
}

/** The edges at which a sign may be, the best first: one, or two where the direction changes. `y` is its top. */
function edgesOf(boxes, base) {
  const direction = (k) => following(boxes[k - 1], boxes[k]) ?? following(boxes[k], boxes[k + 1]) ?? base;
  const edges = boxes.map((box, k) => {
    const before = boxes[k - 1];
    const leading = start(box, direction(k));
    const isChange = isOneLine(before, box) && !following(before, box);
    const both = isChange ? [leading, end(before, direction(k - 1))] : [leading];
    return { y: box.bottom, xs: direction(k) === base ? both.reverse() : both };
  });
  const last = boxes.length - 1;
  edges.push({ y: boxes[last].bottom, xs: [end(boxes[last], direction(last))] });
  return edges;
}

/** Takes away of each sign's edges those of other signs of its line, until each has one. */
function settle(signs) {
  for (;;) {
    const settled = signs.filter(({ xs }) => xs.length === 1).map(({ xs }) => xs[0]);
    const open = signs.filter(({ xs }) => xs.length > 1);
    if (open.length === 0) return;
    const isTaken = (x) => settled.some((it) => isNear(it, x));
    const forced = open.find(({ xs }) => xs.some(isTaken));
    if (forced) forced.xs = [forced.xs.find((it) => !isTaken(it)) ?? forced.xs[0]];
    else open[0].xs = [open[0].xs[0]];
  }
}

/**
 * The places of the positions before each of some letters, of which there is one at least, and after the last: the
 * middle of each sign, and its top. `boxes` are those of letters in reading order, `base` is the direction of their
 * paragraph. Where the direction changes a sign stands at one of two letters: at the one that does not go in the
 * paragraph's direction, if no other sign stands there.
 */
export function signPlaces(boxes, base) {
  const signs = edgesOf(boxes, base);
  for (let from = 0; from < signs.length; ) {
    let to = from + 1;
    while (to < signs.length && Math.abs(signs[to].y - signs[from].y) < boxes[from].height / 2) to++;
    settle(signs.slice(from, to));
    from = to;
  }
  return signs.map(({ xs, y }) => ({ x: xs[0], y }));
}
