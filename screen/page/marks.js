/* What is marked: nets, boxes and lines of the text. A line marks its track, a track its line, and a line of a list
both. */
import { pointBox, widened } from "./boxes.js";
import { markLists } from "./lists.js";
import { say } from "./say.js";
import { netWords } from "./tool.js";

const byId = id => document.getElementById(id);
const APART = 4;                  // pixels from which points are told apart
const ROOM = 20;                  // points around one that is gone to
const NEAR = 6;                   // pixels from which a track is still hit

export class Marks {
  constructor(desk) {
    this.desk = desk;
    this.marked = { nets: new Set(), boxes: [], lines: [] };
  }

  /** Marks nets, boxes and lines, and says words. */
  set({ nets = [], boxes = [], lines = [], words = "" }, scroll = true) {
    this.marked = { nets: new Set(nets), boxes, lines };
    this.show();
    this.desk.text.mark(lines, scroll);
    if (words) say(words);
  }

  /** The text may be another one: what is marked keeps its mark, on the lines where it now stands. */
  renew() {
    const { foil } = this.desk.state, { nets, boxes, lines } = this.marked, marked = new Set(boxes.map(String));
    const found = [...foil.nets.filter(net => nets.has(net.net)).flatMap(net => net.lines),
                   ...foil.patches.filter(patch => marked.has(String(patch.box))).map(patch => patch.line)];
    const kept = foil.text === this.textMarked ? lines : found;
    this.textMarked = foil.text;
    this.marked = { nets, boxes, lines: kept };
    this.show();
    this.desk.text.mark(kept, false);
  }

  /** Shows what is marked, as far as it is there. */
  show() {
    this.desk.overlay.set({ marked: this.marked });
    markLists(this.marked);
  }

  /** A line of the text marks what it is about. */
  setLine(line) {
    const { foil } = this.desk.state;
    if (!foil) return;
    const nets = foil.nets.filter(net => net.lines.includes(line));
    const refused = foil.refused.filter(step => step.line === line);
    const boxes = foil.patches.filter(patch => patch.line === line).map(patch => patch.box);
    for (const step of refused) {
      boxes.push(...(step.box ? [step.box] : [pointBox(step.start), pointBox(step.end)]));
    }
    this.set({ nets: nets.map(net => net.net), boxes, lines: [line], words: nets.map(netWords).join("; ") }, false);
  }

  goToLine(line) {
    this.desk.text.goTo(line);
    this.setLine(line);
  }

  /** Shows a box, and marks what is given. */
  goTo(box, marked) {
    this.desk.view.goTo(box);
    this.set(marked);
    const x = Math.min(Math.max(Math.floor((box[0] + box[2]) / 2), 0), this.desk.view.size.width - 1);
    const y = Math.min(Math.max(Math.floor((box[1] + box[3]) / 2), 0), this.desk.view.size.height - 1);
    this.desk.pointer.put([x, y]);
  }

  /** Puts the cursor on a point and shows it, large enough to be told from the next; whether there is such a point. */
  goToPoint([x, y]) {
    const { foil } = this.desk.state, { view } = this.desk;
    if (!foil || !foil.begun || x >= foil.width || y >= foil.height) return false;
    if (view.scale < APART) view.goTo(widened(pointBox([x, y]), ROOM));
    view.reveal(x, y);
    this.desk.pointer.put([x, y]);
    this.desk.stage.focus({ preventScroll: true });
    return true;
  }

  /** Goes to the next line of the list of refusals. */
  goToNext() {
    const all = [...byId("refusals").querySelectorAll(".go")];
    if (!all.length) return say("Nothing is refused or open.");
    this.nextAt = ((this.nextAt ?? -1) + 1) % all.length;
    all[this.nextAt].click();
    all[this.nextAt].scrollIntoView({ block: "nearest" });
  }

  /** The net whose ink is on a point, or near it where points are small. */
  netAt(point) {
    const { foil } = this.desk.state, reach = Math.max(foil.half, Math.min(NEAR / this.desk.view.scale, 40));
    let best = null, least = Infinity;
    for (const net of foil.nets) {
      for (const leg of net.legs) {
        const far = distance(leg, point);
        if (far <= reach && far < least) [best, least] = [net, far];
      }
    }
    return best;
  }
}

/** How far a point is from a box, in x or in y. */
function distance([x0, y0, x1, y1], [x, y]) {
  return Math.max(x0 - x, x - (x1 - 1), y0 - y, y - (y1 - 1), 0);
}
