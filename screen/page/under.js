/* The point under the pointer: its strip, lit, with its place and ends; or what blocks the point. One look up is
under way at a time, and the newest point wins. */
import { Newest, wordsOf } from "./wire.js";

export class Under {
  constructor(desk) {
    this.desk = desk;
    this.place = document.getElementById("under");
    this.point = null;
    this.answer = null;           // what was shown last: the point, the strip or the refusal, milliseconds
    this.newest = new Newest(point => this.ask(point), (point, envelope) => this.show(point, envelope));
  }

  /** The pointer is on another point, or on none. */
  at(point) {
    if (point && this.point && point[0] === this.point[0] && point[1] === this.point[1]) return;
    this.point = point;
    this.again();
  }

  /** The foil may be another one: the strip that is lit is no answer any more, and the same point is asked of anew. */
  renew() {
    this.answer = null;
    this.desk.overlay.set({ lit: null, blocks: [] });
    this.again();
  }

  again() {
    const { foil } = this.desk.state;
    if (!this.point || !foil || !foil.begun) return this.clear();
    this.newest.want(this.point);
  }

  clear() {
    this.newest.drop();
    this.answer = null;
    this.place.textContent = "–";
    this.desk.overlay.set({ lit: null, blocks: [] });
  }

  async ask([x, y]) {
    this.began = performance.now();
    return this.desk.state.ask("look_up", { x, y });
  }

  show(point, envelope) {
    const [x, y] = point, took = performance.now() - this.began, { answer, refused } = envelope;
    this.answer = { point, answer, refused, took, foil: this.desk.state.at };
    if (answer) {
      const [x0, y0, x1, y1] = answer.strip;
      this.place.textContent = `x ${x}, y ${y}: free\nstrip ${answer.place}: ${x0} ${y0} ${x1} ${y1}`;
    } else {
      const here = refused && refused.here.length ? refused.here.join("; ") : wordsOf(envelope);
      const number = refused ? ` (${refused.number})` : "";
      this.place.textContent = `x ${x}, y ${y}: ${refused ? "not free" + number + "\n" : ""}${here}`;
    }
    const blocks = envelope.blocks || (refused && refused.blocks) || [];
    this.desk.overlay.set({ lit: answer ? answer.strip : null, blocks });
  }
}
