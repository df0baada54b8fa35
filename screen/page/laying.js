/* The tools that lay something: a track by two presses, a way drawn by hand, a third pin joined to a net. */
import { count, say } from "./say.js";
import { at, same, Tool, netWords, wayWords } from "./tool.js";
import { refusalWords, wordsOf } from "./wire.js";

/** Lays a track by two presses. */
export class Lay extends Tool {
  from = null;

  hint() {
    return this.from ? `From ${at(this.from)}: click the other end. Escape drops it.`
      : "Click the first end of the track.";
  }

  move(point) {
    if (this.from) this.newest.want(point);
  }

  async trial(point) {
    const { point: to, why } = await this.desk.snapped(point);
    if (why) return { to: point, words: why };
    const net = this.desk.netGiven();
    const envelope = await this.desk.state.ask("find", { from: this.from, to, ...(net ? { net } : {}) });
    return { ...envelope, to };
  }

  tried(point, envelope) {
    if (this.from) showWay(this.desk, envelope, { anchor: this.from, target: envelope.to }, [this.from, envelope.to]);
  }

  async press(point) {
    const { point: to, why } = await this.desk.snapped(point);
    if (why) return say(why, true);
    if (!this.from) {
      const looked = await this.desk.state.ask("look_up", { x: to[0], y: to[1] });
      if (!looked.answer) return say(`${at(to)}: ${wordsOf(looked)}`, true);
      this.from = to;
      return this.desk.plan({ anchor: to });
    }
    const { from } = this, net = await this.desk.netToLay();
    if (!net) return;
    const envelope = await this.desk.change("lay", { net, from, to });
    if (!envelope.answer) return;
    const { way } = envelope.answer;
    this.drop();
    this.desk.laid(net, `Net ${net} laid from ${at(from)} to ${at(to)}: ${count(way.bends, "bend")}.`);
  }

  drop() {
    const begun = Boolean(this.from);
    this.from = null;
    super.drop();
    return begun;
  }
}

/** A way drawn by hand, corner by corner; a press on its last corner books it. */
export class Way extends Tool {
  corners = [];
  pressed = null;                 // the last point that was pressed, which need not be level with the corner before it

  hint() {
    return this.corners.length ? "Click the next corner; click the last one again, or press B, to book the way. "
      + "Backspace takes a corner back." : "Click the first point of the way.";
  }

  move(point) {
    if (this.corners.length) this.newest.want(point);
  }

  async trial(point) {
    const corners = extended(this.corners, point), net = this.desk.netGiven();
    return { ...await this.desk.state.ask("try_book", { corners, ...(net ? { net } : {}) }), corners };
  }

  tried(point, envelope) {
    if (this.corners.length) showWay(this.desk, envelope, { anchor: this.corners[0] }, envelope.corners);
  }

  async press(point) {
    if (!this.corners.length) this.corners = [point];
    else if (same(point, this.pressed) || same(point, this.corners.at(-1))) return this.book();
    else this.corners = extended(this.corners, point);
    this.pressed = point;
    this.desk.plan({ anchor: this.corners[0], corners: this.corners });
    this.newest.want(point);
  }

  /** Books the corners that are drawn. */
  async book() {
    const net = this.corners.length && await this.desk.netToLay();
    if (!net) return;
    const envelope = await this.desk.change("book", { net, corners: this.corners });
    if (!envelope.answer) return;
    const { bends } = envelope.answer.way;
    this.drop();
    this.desk.laid(net, `Net ${net} booked as drawn: ${count(bends, "bend")}.`);
  }

  back() {
    this.corners = this.corners.slice(0, -1);
    this.pressed = null;
    this.newest.drop();
    this.desk.plan(this.corners.length ? { anchor: this.corners[0], corners: this.corners } : {});
    this.desk.preview("");
  }

  drop() {
    const begun = this.corners.length > 0;
    this.corners = [];
    super.drop();
    return begun;
  }
}

/** Joins a point to a net that is on the foil. */
export class Join extends Tool {
  net = null;

  hint() {
    return this.net ? `Click the point to be joined to net ${this.net}.`
      : "Click the track that a point is to be joined to.";
  }

  async press(point) {
    if (!this.net) {
      const net = this.desk.marks.netAt(point);
      if (!net) return say("There is no track on " + at(point) + ".", true);
      this.net = net.net;
      return this.desk.marks.set({ nets: [net.net], lines: net.lines, words: netWords(net) });
    }
    const { point: to, why } = await this.desk.snapped(point), { net } = this;
    if (why) return say(why, true);
    const envelope = await this.desk.change("join", { net, point: to });
    if (!envelope.answer) return;
    this.drop();
    this.desk.laid(net, `${at(to)} joined to net ${net}: ${count(envelope.answer.way.bends, "bend")}.`);
  }

  move(point) {
    if (this.net) this.newest.want(point);
  }

  async trial(point) {
    const { point: to, why } = await this.desk.snapped(point);
    if (why) return { to: point, words: why };
    return { ...await this.desk.state.ask("try_join", { net: this.net, point: to }), to };
  }

  tried(point, envelope) {
    if (this.net) showWay(this.desk, envelope, { target: envelope.to }, []);
  }

  drop() {
    const begun = Boolean(this.net);
    this.net = null;
    super.drop();
    return begun;
  }
}

/** Shows a way that was tried: as it would be laid, with its figures; or a line and the refusal in words. */
function showWay(desk, envelope, plan, straight) {
  const { answer } = envelope, turned = answer && answer.lay;
  if (answer && !turned) {
    desk.plan({ ...plan, corners: answer.corners });
    return desk.preview(wayWords(answer), false, answer);
  }
  desk.plan({ ...plan, corners: straight.length > 1 ? straight : [], refused: true });
  desk.preview(envelope.words || (turned ? refusalWords(turned) : wordsOf(envelope)), true);
}

/** Corners with one more, level with the last or upright over it, whichever is nearer to the point; a corner in the
middle of a straight is left out. */
function extended(corners, [x, y]) {
  const [lx, ly] = corners.at(-1);
  const level = Math.abs(x - lx) >= Math.abs(y - ly);
  const next = level ? [x, ly] : [lx, y];
  if (same(next, [lx, ly])) return corners;
  const before = corners.at(-2);
  const straight = before && (level ? before[1] === ly : before[0] === lx);
  if (!straight) return [...corners, next];
  return same(next, before) ? corners.slice(0, -1) : [...corners.slice(0, -1), next];
}
