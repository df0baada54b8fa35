/* The pointer and the keyboard's cursor on the foil: both give points, presses and releases to the tool that is held.

The wheel makes points larger and smaller about the pointer; with Shift it moves the view across. Dragging with the
middle button, with Space held, or with a tool that has no use of a drag, moves the view. */
import { RULER } from "./view.js";

const EVENTS = ["pointerdown", "pointermove", "pointerup", "pointercancel", "pointerleave", "keydown", "keyup"];
const MOVED = 4;                  // pixels that are no drag yet
const FAR = 10;                   // points that the cursor goes with Shift

export class Pointer {
  constructor(desk, stage) {
    this.desk = desk;
    this.stage = stage;
    this.view = desk.view;
    this.held = null;             // where a button was pressed, and what for
    this.space = false;
    this.cursor = null;
    this.presses = Promise.resolve();
    this.waiting = 0;
    for (const name of EVENTS) {
      stage.addEventListener(name, event => this[name](event));
    }
    stage.addEventListener("wheel", event => this.wheel(event), { passive: false });
    stage.addEventListener("contextmenu", event => event.preventDefault());
    stage.addEventListener("blur", () => { this.space = false; });
  }

  pixel(event) {
    const box = this.stage.getBoundingClientRect();
    return [event.clientX - box.left, event.clientY - box.top];
  }

  /** The point at an event, or null off the foil; with `kept`, the nearest one on it. */
  pointOf(event, kept = false) {
    const { foil } = this.desk.state;
    if (!foil || !foil.begun) return null;
    const pixel = this.pixel(event);
    return kept ? this.onFoil(...this.view.toFoil(...pixel).map(Math.floor)) : this.view.pointAt(...pixel);
  }

  /** A point, or the one on the foil that is nearest to it. */
  onFoil(x, y) {
    const { width, height } = this.view.size;
    return [Math.min(Math.max(x, 0), width - 1), Math.min(Math.max(y, 0), height - 1)];
  }

  /** Does something after what was pressed before is done. */
  after(act) {
    this.waiting += 1;
    this.presses = this.presses.then(act).catch(failure => this.desk.broken(failure))
      .finally(() => { this.waiting -= 1; });
    return this.presses;
  }

  pointerdown(event) {
    if (event.button > 1) return;
    this.stage.focus({ preventScroll: true });
    this.stage.setPointerCapture(event.pointerId);
    const point = this.pointOf(event), { tool } = this.desk;
    const pans = event.button === 1 || this.space || !point;
    this.held = { pixel: this.pixel(event), point, pans, moved: false, tool };
    this.hideCursor();
    if (!pans && point && tool.drags) this.after(() => tool.press(point)).then(() => this.desk.tellHint());
    event.preventDefault();
  }

  pointermove(event) {
    const pixel = this.pixel(event);
    if (this.held && !this.held.moved) {
      const [dx, dy] = [pixel[0] - this.held.pixel[0], pixel[1] - this.held.pixel[1]];
      this.held.moved = Math.hypot(dx, dy) > MOVED;
    }
    if (this.held && this.held.moved && (this.held.pans || !this.held.tool.drags)) {
      this.view.pan(this.held.pixel[0] - pixel[0], this.held.pixel[1] - pixel[1]);
      this.held.pixel = pixel;
      return;
    }
    this.at(this.pointOf(event, Boolean(this.held && this.held.moved)), false);
  }

  /** The pointer or, by keys, the cursor is on a point, or on none. What is shown of it is read out for the cursor. */
  at(point, byKeys) {
    for (const id of ["under", "preview"]) {
      document.getElementById(id).setAttribute("aria-live", byKeys ? "polite" : "off");
    }
    this.desk.under.at(point);
    if (point) this.desk.tool.move(point);
  }

  pointerup(event) {
    const held = this.held, point = this.pointOf(event, true);
    this.held = null;
    if (!held || held.pans || !held.point) return;
    const { tool } = held;
    if (tool.drags) {
      const elsewhere = point && (point[0] !== held.point[0] || point[1] !== held.point[1]);
      if (elsewhere) this.after(() => tool.release(point)).then(() => this.desk.tellHint());
    } else if (!held.moved) {
      this.after(() => tool.press(held.point)).then(() => this.desk.tellHint());
    }
  }

  pointercancel() {
    this.held = null;
  }

  pointerleave() {
    if (!this.held && !this.cursor) this.desk.under.at(null);
  }

  wheel(event) {
    event.preventDefault();
    const unit = event.deltaMode === 1 ? 20 : event.deltaMode === 2 ? 300 : 1;
    const turned = (event.deltaY || event.deltaX) * unit;
    if (event.shiftKey) this.view.pan(turned, 0);
    else this.view.zoom(Math.exp(-turned * 0.0022), ...this.pixel(event));
  }

  // by keyboard

  keydown(event) {
    if (event.ctrlKey || event.metaKey || event.altKey) return;
    const ways = { ArrowLeft: [-1, 0], ArrowRight: [1, 0], ArrowUp: [0, -1], ArrowDown: [0, 1] };
    if (event.key in ways) {
      const far = event.shiftKey ? FAR : 1, [dx, dy] = ways[event.key];
      this.step(dx * far, dy * far);
    } else if (event.key === "Enter") {
      this.pressCursor();
    } else if (event.key === "Home") {
      this.view.fit();
    } else if (event.key === " ") {
      this.space = true;
    } else if (event.key === "PageUp" || event.key === "PageDown") {
      this.view.pan(0, (event.key === "PageUp" ? -0.8 : 0.8) * (this.view.high - RULER));
    } else {
      return;
    }
    event.preventDefault();
  }

  keyup(event) {
    if (event.key === " ") this.space = false;
  }

  /** Moves the cursor of the keyboard; it begins in the middle of what is seen. */
  step(dx, dy) {
    if (!this.desk.state.foil || !this.desk.state.foil.begun) return;
    const [x, y] = this.cursor || this.desk.under.point || this.middle();
    this.put(this.cursor ? this.onFoil(x + dx, y + dy) : [x, y]);
    this.view.reveal(...this.cursor);
  }

  middle() {
    const [x0, y0, x1, y1] = this.view.seen;
    return [Math.floor((x0 + x1 - 1) / 2), Math.floor((y0 + y1 - 1) / 2)];
  }

  /** Puts the cursor on a point. */
  put(point) {
    this.cursor = point;
    this.desk.overlay.set({ cursor: point });
    this.at(point, true);
  }

  hideCursor() {
    this.cursor = null;
    this.desk.overlay.set({ cursor: null });
  }

  /** A press on the point under the cursor. */
  pressCursor() {
    const point = this.cursor, { tool } = this.desk;
    if (!point) return this.step(0, 0);
    this.after(() => tool.press(point)).then(() => {
      this.desk.tellHint();
      if (this.cursor) this.desk.tool.move(this.cursor);
    });
  }
}
