/* The view: which part of the foil is seen, and how large a point is.

A point (x, y) of the foil is the unit square from x, y to x + 1, y + 1, and y grows downwards, as in the picture that
the desk prints. `left` and `top` are the foil's place at the corner of the drawing, `scale` is pixels a point. */

export const RULER = 40;          // pixels that the rulers take at the top and on the left
const LARGEST = 64;               // the largest that a point is, in pixels
const MARGIN = 12;                // pixels around a foil that is fitted

export class View {
  constructor() {
    this.scale = 8;
    this.left = 0;
    this.top = 0;
    this.wide = 300;              // of the drawing, in pixels, rulers included
    this.high = 300;
    this.size = { width: 1, height: 1 };
    this.whole = true;            // the whole foil is shown, and stays so where the drawing has another size
    this.listeners = [];
  }

  /** Calls `listener` after each change of the view. */
  onChange(listener) {
    this.listeners.push(listener);
  }

  changed() {
    for (const listener of this.listeners) listener(this);
  }

  /** The drawing has another size. */
  resize(wide, high) {
    this.wide = Math.max(wide, RULER + 20);
    this.high = Math.max(high, RULER + 20);
    if (this.whole) this.fit();
    else this.changed();
  }

  /** The scale at which the whole foil is seen. */
  get fitting() {
    const across = (this.wide - RULER - 2 * MARGIN) / this.size.width;
    const down = (this.high - RULER - 2 * MARGIN) / this.size.height;
    return Math.min(across, down, LARGEST);
  }

  /** The foil has this size; it is shown whole where that is another one than before. */
  show(width, height) {
    const same = this.size.width === width && this.size.height === height;
    this.size = { width, height };
    if (!same) this.fit();
  }

  /** Shows the whole foil. */
  fit() {
    this.scale = this.fitting;
    this.centre(this.size.width / 2, this.size.height / 2);
    this.whole = true;
  }

  /** Moves the view so that a place of the foil is in its middle. */
  centre(x, y) {
    this.left = x - (this.wide - RULER) / 2 / this.scale;
    this.top = y - (this.high - RULER) / 2 / this.scale;
    this.whole = false;
    this.changed();
  }

  /** Moves the view by pixels. */
  pan(dx, dy) {
    this.left += dx / this.scale;
    this.top += dy / this.scale;
    this.keepNear();
    this.changed();
  }

  /** Some of the foil stays in the view. */
  keepNear() {
    this.whole = false;
    const across = (this.wide - RULER) / this.scale, down = (this.high - RULER) / this.scale;
    this.left = Math.min(Math.max(this.left, -across * 0.9), this.size.width - across * 0.1);
    this.top = Math.min(Math.max(this.top, -down * 0.9), this.size.height - down * 0.1);
  }

  /** Makes points larger by a factor, about a pixel of the drawing; about its middle where none is given. */
  zoom(factor, px = RULER + (this.wide - RULER) / 2, py = RULER + (this.high - RULER) / 2) {
    const [x, y] = this.toFoil(px, py);
    this.scale = Math.min(Math.max(this.scale * factor, this.fitting / 4), LARGEST);
    this.left = x - (px - RULER) / this.scale;
    this.top = y - (py - RULER) / this.scale;
    this.keepNear();
    this.changed();
  }

  /** Shows a box of points with room around it, no larger than points are now unless it is hard to see. */
  goTo(box) {
    const [x0, y0, x1, y1] = box;
    const room = 1.6;
    const fits = Math.min((this.wide - RULER) / (room * Math.max(x1 - x0, 1)),
                          (this.high - RULER) / (room * Math.max(y1 - y0, 1)));
    this.scale = Math.min(Math.max(this.scale, 6), Math.max(fits, this.fitting), LARGEST);
    this.centre((x0 + x1) / 2, (y0 + y1) / 2);
  }

  /** Moves the view just as far as is needed for a point to be seen. */
  reveal(x, y) {
    const [px, py] = this.toPixel(x + 0.5, y + 0.5);
    const edge = RULER + 24;
    if (px < edge || py < edge || px > this.wide - 24 || py > this.high - 24) this.centre(x + 0.5, y + 0.5);
  }

  /** The pixel of a place of the foil. */
  toPixel(x, y) {
    return [RULER + (x - this.left) * this.scale, RULER + (y - this.top) * this.scale];
  }

  /** The place of the foil at a pixel. */
  toFoil(px, py) {
    return [this.left + (px - RULER) / this.scale, this.top + (py - RULER) / this.scale];
  }

  /** The point at a pixel, or null where that is off the foil or on a ruler. */
  pointAt(px, py) {
    if (px < RULER || py < RULER) return null;
    const [x, y] = this.toFoil(px, py).map(Math.floor);
    return x >= 0 && y >= 0 && x < this.size.width && y < this.size.height ? [x, y] : null;
  }

  /** The box of the foil that is seen, in points. */
  get seen() {
    const [x0, y0] = this.toFoil(RULER, RULER), [x1, y1] = this.toFoil(this.wide, this.high);
    return [Math.max(0, x0), Math.max(0, y0), Math.min(this.size.width, x1), Math.min(this.size.height, y1)];
  }

  /** Whether any of a box is seen. */
  sees(box) {
    const [x0, y0] = this.toFoil(RULER, RULER), [x1, y1] = this.toFoil(this.wide, this.high);
    return box[0] < x1 && box[2] > x0 && box[1] < y1 && box[3] > y0;
  }
}
