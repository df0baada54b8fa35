/* The tools: what presses of the pointer, or of Enter, do on the foil.

A tool takes points. What it is about to do is asked of the server while the pointer moves (find, and the trials), and
is shown as it was answered, with bends, length and ohms, or with the refusal in words. A press asks for the change
itself. Presses are dealt with one after the other, in the order in which they came. */
import { holds } from "./boxes.js";
import { Join, Lay, Way } from "./laying.js";
import { Move, Patch } from "./patching.js";
import { say } from "./say.js";
import { at, netWords, Tool } from "./tool.js";

/** Marks what is under the pointer, and its line. */
class Look extends Tool {
  hint() { return "Click a track or a key to mark its line. Drag moves the foil, the wheel makes it larger, smaller."; }

  async press(point) {
    const { desk } = this, net = desk.marks.netAt(point);
    const patch = desk.state.foil.patches.find(other => holds(other.box, point));
    if (net) desk.marks.set({ nets: [net.net], lines: net.lines, words: netWords(net) });
    else if (patch) desk.marks.set({ boxes: [patch.box], lines: [patch.line], words: patchWords(patch) });
    else desk.marks.set({});
  }
}

/** Lifts the net under a press. */
class Lift extends Tool {
  hint() { return "Click a track to lift its whole net."; }

  move(point) {
    const net = this.desk.marks.netAt(point);
    this.desk.marks.set(net ? { nets: [net.net], lines: net.lines } : {}, false);
  }

  async press(point) {
    const net = this.desk.marks.netAt(point);
    if (!net) return say("There is no track on " + at(point) + ".", true);
    await this.desk.lift(net.net);
  }
}

/** A patch in words. */
function patchWords(patch) {
  return `Patch ${patch.box.join(" ")}${patch.name ? " (" + patch.name + ")" : ""}`;
}

/** The tools by name. */
export const TOOLS = { look: Look, lay: Lay, way: Way, patch: Patch, move: Move, join: Join, lift: Lift };
