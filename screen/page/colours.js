/* The colours of the drawing.

The six of paper and the six of a dark window are those of the desk's picture: eyes that see no red, no green or no
blue tell them apart. Besides, each of the six has a dash of its own along the middle of its ink, and each net its
number. Which net has which of the six is told by the server. */

const PAPER = ["#1c0a6b", "#bb3355", "#3d97dc", "#6b1200", "#b98a0e", "#4455cc"];
const DARK = ["#8866dd", "#ff9944", "#33bbcc", "#dd4400", "#eeff11", "#88ffff"];
// the dash along the middle of a track, by the place of its colour, in pixels
export const DASHES = [[], [7, 5], [2, 4], [12, 4, 2, 4], [4, 2], [14, 7]];
const NAMES = ["page", "sheet", "free", "blocked", "clearance", "strip", "outline", "patch", "patch-edge", "refused",
               "halo", "label", "tick", "lit", "lit-edge", "preview", "mark", "cursor", "key", "ruler", "dead"];

/** The colours of the page as it is now, light or dark, by name; `nets` has the six of tracks. */
export function colours() {
  const style = getComputedStyle(document.documentElement);
  const made = { dark: style.getPropertyValue("--dark").trim() === "1" };
  for (const name of NAMES) made[name] = style.getPropertyValue("--" + name).trim();
  made.nets = made.dark ? DARK : PAPER;
  return made;
}

/** The hatching of points that are blocked, as a pattern for a canvas. */
export function hatch(context, colour, ratio) {
  const tile = document.createElement("canvas");
  const size = Math.round(7 * ratio);
  tile.width = tile.height = size;
  const pen = tile.getContext("2d");
  pen.strokeStyle = colour;
  pen.lineWidth = ratio;
  pen.beginPath();
  for (const shift of [-size, 0, size]) {
    pen.moveTo(shift, size);
    pen.lineTo(shift + size, 0);
  }
  pen.stroke();
  return context.createPattern(tile, "repeat");
}
