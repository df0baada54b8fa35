/* What all tools have in common: points, presses and releases come in, and what a press would do is asked meanwhile. */
import { count } from "./say.js";
import { Newest } from "./wire.js";

/** Whether two points are the same. */
export const same = (a, b) => Boolean(a && b && a[0] === b[0] && a[1] === b[1]);
/** A point in words. */
export const at = ([x, y]) => x + "," + y;

export class Tool {
  constructor(desk) {
    this.desk = desk;
    this.newest = new Newest(point => this.trial(point), (point, envelope) => this.tried(point, envelope));
  }

  hint() { return ""; }
  /** The pointer is on another point. */
  move(point) { }
  /** A press on a point, by pointer or Enter. */
  async press(point) { }
  /** The pointer was let go on another point than where it was pressed. */
  async release(point) { }
  /** Takes one step of what was begun back. */
  back() { this.drop(); }
  /** Gives up what was begun; whether there was something. */
  drop() {
    this.newest.drop();
    this.desk.plan({});
    return false;
  }
  /** Asks what a press on the point would do. */
  async trial(point) { return null; }
  /** Shows that. */
  tried(point, envelope) { }
  /** Whether the pointer's drag is the tool's, and does not move the view. */
  get drags() { return false; }
}

/** A way's figures in words. */
export function wayWords({ bends, length, net_length: whole, ohms, dead }) {
  const resistance = ohms === null || ohms === undefined ? "" : `, ${ohms.toFixed(3)} ohms${dead ? " (dead)" : ""}`;
  const net = whole && whole !== length ? `; the net then ${whole}` : "";
  return `${count(bends, "bend")}, length ${length}${net}${resistance}`;
}

/** A net in words. */
export function netWords(net) {
  const bends = net.bends === null ? count(net.legs.length, "leg") : count(net.bends, "bend");
  const ohms = net.ohms === null ? "" : `, ${net.ohms.toFixed(3)} ohms${net.dead ? " (dead)" : ""}`;
  return `Net ${net.net}${net.name ? " (" + net.name + ")" : ""}: ${bends}, length ${net.length}${ohms}`;
}

/** Nets in words. */
export function named(nets) {
  return (nets.length === 1 ? "net " : "nets ") + nets.join(", ");
}
