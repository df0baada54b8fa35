/* The rulers of the drawing, at its top and on its left. */
import { RULER } from "./view.js";

const APART = 44;                 // the least between two numbers, in pixels
const FONT = "11px system-ui, sans-serif";

/** The numbers of points, at the top and on the left, with a tick at the middle of the point. */
export function paintRulers(drawing) {
  const { colours, pen, view } = drawing, step = rulerStep(view.scale), [x0, y0, x1, y1] = view.seen;
  pen.fillStyle = colours.ruler;
  pen.fillRect(0, 0, view.wide, RULER - 2);
  pen.fillRect(0, 0, RULER - 2, view.high);
  pen.fillStyle = pen.strokeStyle = colours.tick;
  pen.font = FONT;
  pen.lineWidth = 1;
  pen.textAlign = "center";
  pen.textBaseline = "middle";
  pen.beginPath();
  for (let x = Math.ceil(x0 / step) * step; x < x1; x += step) {
    const px = view.toPixel(x + 0.5, 0)[0];
    if (px < RULER) continue;
    pen.fillText(x, px, RULER / 2 - 4);
    pen.moveTo(px, RULER - 8);
    pen.lineTo(px, RULER - 3);
  }
  pen.textAlign = "right";
  for (let y = Math.ceil(y0 / step) * step; y < y1; y += step) {
    const py = view.toPixel(0, y + 0.5)[1];
    if (py < RULER) continue;
    pen.fillText(y, RULER - 8, py);
    pen.moveTo(RULER - 6, py);
    pen.lineTo(RULER - 3, py);
  }
  pen.stroke();
}

/** How many points there are between two numbers of a ruler: 1, 2 or 5 with zeros. */
function rulerStep(scale) {
  let step = 1;
  while (step * scale < APART) step = String(step)[0] === "2" ? step * 5 / 2 : step * 2;
  return step;
}
