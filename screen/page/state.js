/* The order as the server told it last, and the changes that are asked of it.

Changes go one after the other, each with the version that it is meant for. A change that is refused, or that could
not be asked, leaves the state as it is, so neither text nor drawing moves. While the text that was typed is not the
text that the server has run, `behind` says so, and the page shows it. */
import { Wire, wordsOf } from "./wire.js";

export class State {
  constructor() {
    this.whole = null;            // STATE, as it came
    this.foil = null;             // FOIL, with what the drawing needs besides
    this.library = null;          // of the last envelope
    this.screens = 1;
    this.at = 0;                  // the foil that is shown
    this.behind = "";             // why the drawing is not of the text that is seen; empty where it is
    this.listeners = [];
    this.queue = Promise.resolve();
    this.waiting = 0;
    this.wire = new Wire(envelope => this.heard(envelope), gone => this.lost(gone));
    this.onTold = () => {};       // what is to be said to the person: words, and whether it is bad
    this.onAlarm = () => {};      // a lasting warning: words, or empty
    this.onUnasked = () => {};    // the text of the foil that is wanted, and why there is nothing else
  }

  onChange(listener) {
    this.listeners.push(listener);
  }

  changed(what) {
    for (const listener of this.listeners) listener(what);
  }

  get version() {
    return this.whole ? this.whole.version : 0;
  }

  get busy() {
    return this.waiting > 0 || this.wire.flying > 0;
  }

  /** Every envelope tells how the library is and how many screens there are. */
  heard({ library, screens }) {
    if (library) this.library = library;
    if (screens) this.screens = screens;
    this.onAlarm("gone", "");
    this.onAlarm("library", !library || library.standing ? "" : "The proved library cannot be asked now: "
      + library.why + "\nNo text is lost. It is started anew at the next request.");
    this.changed("envelope");
  }

  lost({ why }) {
    this.onAlarm("gone", `Not asked: ${why}.\nWhat is drawn is what was answered last. Keep this page open: it has the `
      + "text.");
  }

  /** Shows a state that came. */
  take(whole) {
    this.whole = whole;
    this.foil = derived(whole.foil);
    this.at = whole.foil.foil;
    this.changed("state");
  }

  /** Asks for the whole state anew, of a foil. */
  async load(foil = this.at) {
    const envelope = await this.wire.ask("state", { foil });
    if (envelope.answer) this.take(envelope.answer);
    else this.missed(envelope, foil);
    return envelope;
  }

  /** The state could not be asked: the texts that came with that are shown, and no foil. */
  missed(envelope, foil) {
    this.onTold(wordsOf(envelope), true);
    if (envelope.unasked && envelope.unasked.texts) this.onUnasked(envelope.unasked.texts[foil], envelope.unasked.why);
  }

  /** Asks what changes nothing, of the foil that is shown. */
  ask(name, body = {}) {
    return this.wire.ask(name, { foil: this.at, ...body });
  }

  /** Asks for a change, after those that were asked for before it; the envelope. */
  change(name, body = {}, { quiet = false } = {}) {
    this.waiting += 1;
    const done = this.queue.then(() => this.changeNow(name, body, quiet)).finally(() => { this.waiting -= 1; });
    this.queue = done.catch(() => {});
    return done;
  }

  async changeNow(name, body, quiet) {
    const envelope = await this.wire.ask(name, { foil: this.at, ...body, version: this.version });
    if (envelope.answer) {
      this.take(envelope.answer.state);
    } else if (envelope.fault && envelope.fault.kind === "stale" && name !== "text") {
      await this.load();
      this.onTold("The order was changed meanwhile, so this was not done: look again.", true);
    } else if (!quiet) {
      this.onTold(wordsOf(envelope), true);
    }
    if (envelope.unasked && this.whole) this.whole.version = envelope.version;
    return envelope;
  }
}

/** A foil with what the drawing needs besides: its numbers at hand, and all refused steps in one list. */
function derived(foil) {
  const board = foil.board || { width: 0, height: 0, half: 0, gap: 0 };
  const open = foil.open.map(step => ({ ...step, word: "track", start: step.from, end: step.to }));
  const missing = foil.missing.map(step => ({ ...step, word: step.net ? "leg" : "patch" }));
  return { ...foil, ...board, strips: Int32Array.from(foil.strips), refused: [...open, ...missing] };
}
