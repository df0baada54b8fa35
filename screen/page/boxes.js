/* Boxes of points, [x0, y0, x1, y1] with ends x1 and y1 excluded: what the drawing asks of them. */

/** A box with so many points more on each side. */
export function widened([x0, y0, x1, y1], by) {
  return [x0 - by, y0 - by, x1 + by, y1 + by];
}

/** What two boxes have in common; empty or reversed where that is nothing. */
export function common(a, b) {
  return [Math.max(a[0], b[0]), Math.max(a[1], b[1]), Math.min(a[2], b[2]), Math.min(a[3], b[3])];
}

/** The smallest box around several; null around none. */
export function around(boxes) {
  if (!boxes.length) return null;
  return [Math.min(...boxes.map(box => box[0])), Math.min(...boxes.map(box => box[1])),
          Math.max(...boxes.map(box => box[2])), Math.max(...boxes.map(box => box[3]))];
}

/** Whether a point is in a box. */
export function holds([x0, y0, x1, y1], [x, y]) {
  return x0 <= x && x < x1 && y0 <= y && y < y1;
}

/** A point as a box. */
export function pointBox([x, y]) {
  return [x, y, x + 1, y + 1];
}

/** The box that two corner points span, both of them in it. */
export function spanned([ax, ay], [bx, by]) {
  return [Math.min(ax, bx), Math.min(ay, by), Math.max(ax, bx) + 1, Math.max(ay, by) + 1];
}

/** A box whichever way round it was given. */
export function ordered([ax, ay, bx, by]) {
  return [Math.min(ax, bx), Math.min(ay, by), Math.max(ax, bx), Math.max(ay, by)];
}
