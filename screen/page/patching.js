/* The tools for patches: one is drawn by dragging, and a key is moved with its tracks. */
import { holds, spanned } from "./boxes.js";
import { say } from "./say.js";
import { at, named, same, Tool } from "./tool.js";
import { wordsOf } from "./wire.js";

/** Draws a patch by dragging, or by a press on each of two opposite points. */
export class Patch extends Tool {
  from = null;

  get drags() { return true; }

  hint() {
    return this.from ? "Let go, or press, at the opposite corner."
      : "Drag from a corner of the patch to the opposite one.";
  }

  move(point) {
    if (!this.from) return;
    this.desk.plan({ box: spanned(this.from, point) });
    this.newest.want(point);
  }

  async trial(point) {
    const box = spanned(this.from, point);
    return { ...await this.desk.state.ask("try_draw", { box }), box };
  }

  tried(point, envelope) {
    if (!this.from) return;
    this.desk.plan({ box: envelope.box, refused: !envelope.answer });
    this.desk.preview(envelope.answer ? "patch " + envelope.box.join(" ") : wordsOf(envelope), !envelope.answer);
  }

  async press(point) {
    if (this.from) return this.draw(point);
    this.from = point;
    this.desk.plan({ box: spanned(point, point) });
  }

  async release(point) {
    if (this.from) await this.draw(point);
  }

  async draw(point) {
    const box = spanned(this.from, point), envelope = await this.desk.change("draw", { box });
    this.drop();
    if (!envelope.answer) return;
    say(`Patch ${box.join(" ")} drawn.`);
    this.desk.marks.set({ boxes: [box] });
  }

  drop() {
    const begun = Boolean(this.from);
    this.from = null;
    super.drop();
    return begun;
  }
}

/** Moves a key; its tracks are lifted and laid anew. */
export class Move extends Tool {
  box = null;

  get drags() { return true; }

  hint() {
    return this.box ? "Let go, or press, where the key is to be."
      : "Drag a key, or press on it and then on its new place.";
  }

  by(point) {
    return [point[0] - this.held[0], point[1] - this.held[1]];
  }

  async press(point) {
    if (this.box) return this.put(point);
    const patch = this.desk.state.foil.patches.findLast(other => holds(other.box, point));
    if (!patch) return say("There is no key on " + at(point) + ".", true);
    this.box = patch.box;
    this.held = point;
    this.desk.plan({ box: patch.box });
    const envelope = await this.desk.state.ask("tracks_of", { box: patch.box });
    if (!envelope.answer) return say(wordsOf(envelope), true);
    const { nets, stay } = envelope.answer;
    this.desk.marks.set({ nets, boxes: [patch.box] });
    say(`Key ${patch.name || patch.box.join(" ")}: `
      + (nets.length ? "with it " + named(nets) : "no track goes with it")
      + (stay.length ? "; " + named(stay) + " cannot be laid anew and stay" : "") + ".");
  }

  move(point) {
    if (this.box && !same(point, this.held)) this.newest.want(point);
  }

  async trial(point) {
    const by = this.by(point);
    return { ...await this.desk.state.ask("try_move", { box: this.box, by }), by };
  }

  tried(point, envelope) {
    if (!this.box) return;
    const { answer, by } = envelope, [x0, y0, x1, y1] = this.box;
    const box = [x0 + by[0], y0 + by[1], x1 + by[0], y1 + by[1]];
    this.desk.plan({ box, refused: !answer, ghost: answer ? answer.foil : null });
    const anew = answer && answer.nets.length ? ", laid anew: " + named(answer.nets) : "";
    this.desk.preview(answer ? "key to " + box.join(" ") + anew : wordsOf(envelope), !answer);
  }

  async release(point) {
    if (this.box) await this.put(point);
  }

  async put(point) {
    const by = this.by(point), { box } = this;
    if (by[0] === 0 && by[1] === 0) return;
    const envelope = await this.desk.change("move", { box, by });
    this.drop();
    if (!envelope.answer) return;
    const { nets } = envelope.answer;
    this.desk.marks.set({ nets });
    say("Key moved by " + at(by) + (nets.length ? "; laid anew: " + named(nets) : "") + ".");
  }

  drop() {
    const begun = Boolean(this.box);
    this.box = null;
    super.drop();
    return begun;
  }
}
