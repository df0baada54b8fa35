/* What the page shows, for whoever tests it: main.js says what each name holds. */
import { layers } from "./layers.js";
import { warningsNow } from "./say.js";

/** What is shown on a desk, read anew at each use. */
export function shown(desk) {
  const { state, view, drawing, overlay, pointer, text, under } = desk;
  return {
    get ready() { return Boolean(state.whole); },
    get idle() {
      return Boolean(state.whole) && !state.busy && !text.unsent && !pointer.waiting && !drawing.asked && !overlay.asked
        && !under.newest.busy && !desk.tool.newest.busy;
    },
    get version() { return state.version; },
    get foilAt() { return state.at; },
    get text() { return text.area.value; },
    get unsent() { return text.unsent; },
    get foil() { return state.foil; },
    get behind() { return desk.stage.dataset.behind === "true"; },
    get drawn() { return drawnOf(state.foil && state.foil.begun ? drawing.foil : null); },
    get under() { return under.answer; },
    get lit() { return overlay.lit; },
    get preview() { return desk.shownWay; },
    get tool() { return desk.toolName; },
    get marked() { return { ...desk.marks.marked, nets: [...desk.marks.marked.nets] }; },
    get view() { return { scale: view.scale, left: view.left, top: view.top }; },
    get paints() { return drawing.paints; },
    get warnings() { return warningsNow(); },
    get library() { return state.library; },
    get screens() { return state.screens; },
    get screen() { return state.wire.screen; },
    pixelOf(x, y) {
      const box = desk.stage.getBoundingClientRect(), [px, py] = view.toPixel(x + 0.5, y + 0.5);
      return [box.left + px, box.top + py];
    },
    goTo(x, y) { view.centre(x + 0.5, y + 0.5); },
  };
}

/** What is on the canvas of a foil. */
function drawnOf(foil) {
  if (!foil) return { tracks: [], patches: [], strips: [], refused: [] };
  const strips = [];
  for (let at = 0; at < foil.strips.length; at += 4) strips.push(Array.from(foil.strips.slice(at, at + 4)));
  return {
    tracks: foil.nets.map(({ net, legs, corners, colour }) => ({ net, legs, corners, colour })),
    patches: foil.patches.map(patch => patch.box),
    strips: layers.strips || layers.blocked ? strips : [],
    refused: layers.refused ? foil.refused.map(({ word, net, number, start, end, box, line }) =>
      ({ word, net, number, start, end, box, line })) : [],
  };
}
