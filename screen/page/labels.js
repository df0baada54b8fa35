/* The labels of the drawing: names of keys, numbers of nets with their names where there is room, numbers of
refusals. */
import { common, ordered, widened } from "./boxes.js";

const FONT = "bold 12px system-ui, sans-serif";
const REFUSED = 200;              // so many refused steps have a label at most

/** The names of keys, the numbers of nets with their names where there is room, the numbers of refusals. */
export function paintLabels(drawing) {
  const { foil, layers, pen, view } = drawing, taken = [];
  pen.textAlign = "center";
  pen.textBaseline = "middle";
  for (const patch of foil.patches) if (patch.name) paintLabel(drawing, patch.name, patch.box, "key", taken);
  for (const net of foil.nets) {
    const leg = net.legs.reduce((best, other) => lengthOf(other) > lengthOf(best) ? other : best);
    const name = net.name ? net.net + " " + net.name : String(net.net);
    paintLabel(drawing, view.scale * lengthOf(leg) > 90 ? name : String(net.net), leg, "label", taken, net.dead);
  }
  if (!layers.refused) return;
  for (const step of foil.refused.slice(0, REFUSED)) {
    const box = step.box ? ordered(step.box) : step.start && [...step.start, ...step.end];
    if (box) paintLabel(drawing, (step.net || step.word) + " (" + step.number + ")", box, "refused", taken);
  }
}

/** A label at the middle of what is seen of a box, with a halo; left out where another one is. */
function paintLabel(drawing, text, box, colour, taken, dead = false) {
  const { colours, pen, view } = drawing, seen = common(widened(ordered(box), 0.01), view.seen);
  if (seen[0] > seen[2] || seen[1] > seen[3]) return;
  const shown = (text.length > 24 ? text.slice(0, 22) + ".." : text) + (dead ? " dead" : "");
  const [px, py] = view.toPixel((seen[0] + seen[2]) / 2, (seen[1] + seen[3]) / 2);
  pen.font = FONT;
  const wide = pen.measureText(shown).width / 2 + 2;
  const spot = [px - wide, py - 8, px + wide, py + 8];
  if (taken.some(other => meets(spot, other))) return;
  taken.push(spot);
  pen.lineJoin = "round";
  pen.lineWidth = 3.5;
  pen.strokeStyle = colours.halo;
  pen.strokeText(shown, px, py);
  pen.fillStyle = colours[dead ? "dead" : colour];
  pen.fillText(shown, px, py);
}

function meets(a, b) {
  return a[0] < b[2] && a[2] > b[0] && a[1] < b[3] && a[3] > b[1];
}

function lengthOf([x0, y0, x1, y1]) {
  return x1 - x0 + y1 - y0;
}
