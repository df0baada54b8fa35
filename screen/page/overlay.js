/* What lies over the drawing and changes with the pointer: the strip that is lit, what blocks a point, what is
marked, the cursor of the keyboard, and what a tool is about to do. It is a canvas of its own, so that the drawing
below is not drawn again while the pointer moves. */
import { pointBox, widened } from "./boxes.js";
import { colours } from "./colours.js";
import { fitCanvas } from "./drawing.js";
import { RULER } from "./view.js";

export class Overlay {
  constructor(canvas, view) {
    this.canvas = canvas;
    this.view = view;
    this.pen = canvas.getContext("2d");
    this.foil = null;
    this.asked = false;
    this.lit = null;              // the strip that holds the point
    this.blocks = [];             // what blocks it
    this.cursor = null;           // the point of the keyboard
    this.marked = { nets: new Set(), boxes: [] };
    this.plan = {};               // what a tool is about to do: anchor, corners, box, ghost, refused
  }

  /** Changes what is shown, by name, and draws at the next frame. */
  set(changes) {
    Object.assign(this, changes);
    this.repaint();
  }

  repaint() {
    if (this.asked) return;
    this.asked = true;
    requestAnimationFrame(() => {
      this.asked = false;
      this.paint();
    });
  }

  paint() {
    const ratio = fitCanvas(this.canvas, this.view), { pen, view } = this;
    pen.setTransform(ratio, 0, 0, ratio, 0, 0);
    pen.clearRect(0, 0, view.wide, view.high);
    if (!this.foil) return;
    this.colours = colours();
    pen.save();
    pen.beginPath();
    pen.rect(RULER, RULER, view.wide - RULER, view.high - RULER);
    pen.clip();
    this.paintMarked();
    this.paintLit();
    this.paintPlan();
    this.paintCursor();
    pen.restore();
  }

  /** A box in pixels, not smaller than so many. */
  rectangle([x0, y0, x1, y1], least = 2) {
    const [px, py] = this.view.toPixel(x0, y0), [qx, qy] = this.view.toPixel(x1, y1);
    return [px, py, Math.max(qx - px, least), Math.max(qy - py, least)];
  }

  /** The strip under the pointer, filled and with a broad outline; what blocks the point, with a broken one. */
  paintLit() {
    const { pen } = this;
    if (this.lit) {
      pen.fillStyle = this.colours.lit;
      pen.strokeStyle = this.colours["lit-edge"];
      pen.lineWidth = 2;
      pen.fillRect(...this.rectangle(this.lit));
      pen.strokeRect(...this.rectangle(this.lit));
    }
    pen.strokeStyle = this.colours.refused;
    pen.lineWidth = 2.5;
    pen.setLineDash([3, 3]);
    for (const entry of this.blocks) pen.strokeRect(...this.rectangle(entry.box));
    pen.setLineDash([]);
  }

  /** An outline around the ink of marked nets, all legs of a net in one, and around marked boxes. */
  paintMarked() {
    const { pen, foil } = this, edge = 3 / this.view.scale;
    const legs = foil.nets.filter(net => this.marked.nets.has(net.net)).flatMap(net => net.legs);
    const around = by => {
      const path = new Path2D();
      for (const leg of legs) path.rect(...this.rectangle(widened(leg, foil.half + by)));
      return path;
    };
    pen.fillStyle = pen.strokeStyle = this.colours.mark;
    pen.fill(around(2 * edge));
    pen.globalCompositeOperation = "destination-out";
    pen.fill(around(edge / 2));
    pen.globalCompositeOperation = "source-over";
    pen.lineWidth = 3;
    for (const box of this.marked.boxes) pen.strokeRect(...this.rectangle(widened(box, edge)));
  }

  /** What a tool is about to do; broken lines where it would be refused. */
  paintPlan() {
    const { pen, plan } = this;
    pen.strokeStyle = pen.fillStyle = plan.refused ? this.colours.refused : this.colours.preview;
    pen.setLineDash(plan.refused ? [5, 4] : []);
    if (plan.ghost) this.paintGhost(plan.ghost);
    if (plan.box) {
      pen.lineWidth = 2;
      pen.globalAlpha = 0.25;
      pen.fillRect(...this.rectangle(plan.box));
      pen.globalAlpha = 1;
      pen.strokeRect(...this.rectangle(plan.box));
    }
    if (plan.corners && plan.corners.length) this.paintWay(plan.corners, !plan.refused);
    pen.setLineDash([]);
    if (plan.anchor) this.paintSpot(plan.anchor);
    if (plan.target) this.paintSpot(plan.target);
  }

  /** A way through its corners, as wide as the pen's ink would be, with its middle on top. */
  paintWay(corners, inked) {
    const { pen, foil, view } = this, path = new Path2D();
    corners.forEach(([x, y], at) => {
      const place = view.toPixel(x + 0.5, y + 0.5);
      if (at) path.lineTo(...place);
      else path.moveTo(...place);
    });
    if (corners.length === 1) path.lineTo(...view.toPixel(corners[0][0] + 0.51, corners[0][1] + 0.5));
    pen.lineCap = "square";
    pen.lineJoin = "miter";
    if (inked) {
      pen.globalAlpha = 0.4;
      pen.lineWidth = Math.max((2 * foil.half + 1) * view.scale, 3);
      pen.stroke(path);
      pen.globalAlpha = 1;
    }
    pen.lineWidth = 2;
    pen.stroke(path);
    pen.lineCap = "butt";
  }

  /** The foil as a move would leave it: the ink of the nets that are another way there. */
  paintGhost(ghost) {
    const { pen } = this, before = new Map(this.foil.nets.map(net => [net.net, String(net.legs)]));
    const path = new Path2D();
    for (const net of ghost.nets) {
      if (before.get(net.net) === String(net.legs)) continue;
      for (const leg of net.legs) path.rect(...this.rectangle(widened(leg, this.foil.half)));
    }
    pen.globalAlpha = 0.5;
    pen.fill(path);
    pen.globalAlpha = 1;
  }

  /** A spot with a ring, at a point that a tool has taken. */
  paintSpot([x, y]) {
    const { pen } = this, [px, py] = this.view.toPixel(x + 0.5, y + 0.5);
    pen.beginPath();
    pen.arc(px, py, 6, 0, 7);
    pen.lineWidth = 2;
    pen.stroke();
    pen.beginPath();
    pen.arc(px, py, 2, 0, 7);
    pen.fill();
  }

  /** The cursor of the keyboard: the point's square in a frame, with a cross that can be found. */
  paintCursor() {
    if (!this.cursor) return;
    const { pen } = this, [px, py, wide, high] = this.rectangle(pointBox(this.cursor), 5);
    const x = px + wide / 2, y = py + high / 2, arm = Math.max(wide, high) / 2 + 10;
    for (const [colour, line] of [[this.colours.halo, 4], [this.colours.cursor, 2]]) {
      pen.strokeStyle = colour;
      pen.lineWidth = line;
      pen.strokeRect(px, py, wide, high);
      pen.beginPath();
      for (const [dx, dy] of [[1, 0], [-1, 0], [0, 1], [0, -1]]) {
        pen.moveTo(x + dx * (wide / 2 + 2), y + dy * (high / 2 + 2));
        pen.lineTo(x + dx * arm, y + dy * arm);
      }
      pen.stroke();
    }
  }
}
