/* The drawing of a foil on a canvas: ground, strips, patches, tracks, what was refused, labels, rulers.

It draws what the state holds and nothing else. Points that are blocked for the pen are those of no strip: they are
hatched. Only what is in the view is drawn, so that 4,096 strips and a foil of 4,096 by 4,096 points go as smoothly as
a small one. */
import { common, ordered, widened } from "./boxes.js";
import { colours, DASHES, hatch } from "./colours.js";
import { paintLabels } from "./labels.js";
import { paintRulers } from "./rulers.js";
import { RULER } from "./view.js";

const THINNEST = 1.6;             // ink that is narrower in pixels cannot be seen, and is drawn as wide as this
const GRID = 14;                  // from so many pixels a point on there are lines between points
const OUTLINED = 3;               // strips that are lower or narrower in pixels have no outline
const MANY = 10;                  // where so many steps are refused their lines are dim

export class Drawing {
  constructor(canvas, view, layers) {
    this.canvas = canvas;
    this.view = view;
    this.layers = layers;
    this.pen = canvas.getContext("2d");
    this.foil = null;
    this.asked = false;
    this.paints = 0;
  }

  /** Draws another foil, or none. */
  show(foil) {
    this.foil = foil;
    this.repaint();
  }

  /** Draws at the next frame, however often it is asked for. */
  repaint() {
    if (this.asked) return;
    this.asked = true;
    requestAnimationFrame(() => {
      this.asked = false;
      this.paint();
    });
  }

  /** Draws now. */
  paint() {
    const ratio = fitCanvas(this.canvas, this.view), pen = this.pen;
    this.colours = colours();
    this.ratio = ratio;
    pen.setTransform(ratio, 0, 0, ratio, 0, 0);
    pen.fillStyle = this.colours.page;
    pen.fillRect(0, 0, this.view.wide, this.view.high);
    if (this.foil) {
      pen.save();
      pen.beginPath();
      pen.rect(RULER, RULER, this.view.wide - RULER, this.view.high - RULER);
      pen.clip();
      this.paintFoil();
      pen.restore();
      paintRulers(this);
    }
    this.paints += 1;
  }

  /** All that is on the foil, from the ground up. */
  paintFoil() {
    const { layers, foil } = this;
    this.paintGround();
    if (layers.clearance) this.paintClearance();
    if (layers.strips) this.paintStrips();
    if (this.view.scale >= GRID) this.paintGrid();
    this.paintPatches();
    const crowded = foil.refused.length > MANY;
    if (layers.refused && crowded) this.paintRefused(crowded);
    this.paintTracks();
    if (layers.refused && !crowded) this.paintRefused(crowded);
    paintLabels(this);
  }

  /** A box of points as a rectangle in whole pixels of the drawing, not empty. */
  rectangle([x0, y0, x1, y1]) {
    const [px, py] = this.view.toPixel(x0, y0), [qx, qy] = this.view.toPixel(x1, y1);
    return [px, py, Math.max(qx - px, 0.5), Math.max(qy - py, 0.5)];
  }

  /** Adds the boxes that are in the view to a path. */
  pathOf(boxes) {
    const path = new Path2D();
    for (const box of boxes) if (this.view.sees(box)) path.rect(...this.rectangle(box));
    return path;
  }

  get whole() {
    return [0, 0, this.foil.width, this.foil.height];
  }

  /** The sheet: free points plain, all others hatched where that layer is on. */
  paintGround() {
    const { pen, foil } = this;
    const rect = this.rectangle(common(this.whole, this.view.seen));
    pen.fillStyle = this.colours.sheet;
    pen.fillRect(...rect);
    if (this.layers.blocked) {
      pen.fillStyle = hatch(pen, this.colours.blocked, this.ratio);
      pen.save();
      pen.setTransform(1, 0, 0, 1, 0, 0);
      pen.fillRect(...rect.map(pixels => pixels * this.ratio));
      pen.restore();
      pen.fillStyle = this.colours.free;
      pen.fill(this.pathOfStrips(0, 0));
    }
    pen.strokeStyle = this.colours.outline;
    pen.lineWidth = 1.4;
    pen.strokeRect(...this.rectangle(this.whole));
  }

  /** The zone around all ink into which no other track's ink comes. */
  paintClearance() {
    this.pen.fillStyle = this.colours.clearance;
    this.pen.fill(this.pathOf(this.foil.zones.clearance));
  }

  /** The strips in the view as one path: those of `least` pixels, `inset` pixels smaller on each side. */
  pathOfStrips(inset, least) {
    const { view } = this, { strips } = this.foil, { scale } = view, path = new Path2D();
    const [x0, y0, x1, y1] = view.seen, [px, py] = view.toPixel(0, 0);
    for (let at = 0; at < strips.length; at += 4) {
      const sx = strips[at], sy = strips[at + 1], tx = strips[at + 2], ty = strips[at + 3];
      if (sx >= x1 || tx <= x0 || sy >= y1 || ty <= y0) continue;
      const wide = (tx - sx) * scale, high = (ty - sy) * scale;
      if (wide < least || high < least) continue;
      path.rect(px + sx * scale + inset, py + sy * scale + inset, wide - 2 * inset, high - 2 * inset);
    }
    return path;
  }

  /** An outline for each strip that is large enough to have one. */
  paintStrips() {
    this.pen.strokeStyle = this.colours.strip;
    this.pen.lineWidth = 1;
    this.pen.stroke(this.pathOfStrips(0.5, OUTLINED));
  }

  /** Lines between points, where these are large. */
  paintGrid() {
    const { pen, view } = this, [x0, y0, x1, y1] = view.seen, path = new Path2D();
    for (let x = Math.ceil(x0); x <= x1; x++) addLine(path, view.toPixel(x, y0), view.toPixel(x, y1));
    for (let y = Math.ceil(y0); y <= y1; y++) addLine(path, view.toPixel(x0, y), view.toPixel(x1, y));
    pen.strokeStyle = this.colours.tick;
    pen.globalAlpha = 0.25;
    pen.lineWidth = 0.5;
    pen.stroke(path);
    pen.globalAlpha = 1;
  }

  paintPatches() {
    const { pen } = this, path = this.pathOf(this.foil.patches.map(patch => patch.box));
    pen.fillStyle = this.colours.patch;
    pen.fill(path);
    pen.strokeStyle = this.colours["patch-edge"];
    pen.lineWidth = 1;
    pen.stroke(path);
  }

  /** The ink of each net, as wide as the pen, and a dash of its own along the middle where there is room. */
  paintTracks() {
    const { pen, foil, view } = this;
    const across = (2 * foil.half + 1) * view.scale;
    const thicker = Math.max(0, THINNEST - across) / 2 / view.scale;
    for (const net of foil.nets) {
      pen.fillStyle = this.colours.nets[net.colour];
      pen.fill(this.pathOf(net.legs.map(leg => widened(leg, foil.half + thicker))));
      if (across >= 6 && DASHES[net.colour].length) this.paintMiddle(net);
    }
  }

  /** The dash along the middle of a net's legs. */
  paintMiddle(net) {
    const { pen, view } = this, path = new Path2D();
    for (const leg of net.legs) {
      if (!view.sees(leg)) continue;
      const [x0, y0, x1, y1] = leg;
      addLine(path, view.toPixel(x0 + 0.5, y0 + 0.5), view.toPixel(x1 - 0.5, y1 - 0.5));
    }
    pen.strokeStyle = this.colours.sheet;
    pen.lineWidth = 1.5;
    pen.setLineDash(DASHES[net.colour]);
    pen.stroke(path);
    pen.setLineDash([]);
  }

  /** A dashed line for each refused track, and a dashed box for each refused patch or leg. */
  paintRefused(crowded) {
    const { pen, foil } = this;
    pen.globalAlpha = crowded ? 0.6 : 1;
    pen.setLineDash([5, 3]);
    pen.lineWidth = crowded ? 1 : 1.8;
    pen.strokeStyle = this.colours.refused;
    for (const step of foil.refused) {
      if (step.box) pen.strokeRect(...this.rectangle(ordered(step.box)));
      if (step.start && step.end) this.paintWish(step.start, step.end);
    }
    pen.setLineDash([]);
    pen.globalAlpha = 1;
  }

  /** The line of a refused track between its two points, with a ring at each. */
  paintWish(start, end) {
    const { pen, view } = this;
    const [px, py] = view.toPixel(start[0] + 0.5, start[1] + 0.5), [qx, qy] = view.toPixel(end[0] + 0.5, end[1] + 0.5);
    pen.beginPath();
    pen.moveTo(px, py);
    pen.lineTo(qx, qy);
    pen.stroke();
    pen.setLineDash([]);
    for (const [x, y] of [[px, py], [qx, qy]]) {
      pen.beginPath();
      pen.arc(x, y, 4, 0, 7);
      pen.stroke();
    }
    pen.setLineDash([5, 3]);
  }
}

/** Gives a canvas the size of the view, in pixels of the device: how many of them a pixel has. */
export function fitCanvas(canvas, view) {
  const ratio = window.devicePixelRatio || 1;
  const wide = Math.round(view.wide * ratio), high = Math.round(view.high * ratio);
  if (canvas.width !== wide || canvas.height !== high) {
    canvas.width = wide;
    canvas.height = high;
  }
  return ratio;
}

function addLine(path, [ax, ay], [bx, by]) {
  path.moveTo(ax, ay);
  path.lineTo(bx, by);
}
