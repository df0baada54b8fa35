/* The desk: the state, the view, the drawing and the tools of one page, tied together. The other modules get at each
other through it. */
import { Drawing } from "./drawing.js";
import { showFoils } from "./foils.js";
import { orderForm, showInk } from "./forms.js";
import { layers } from "./layers.js";
import { showLists } from "./lists.js";
import { Marks } from "./marks.js";
import * as orders from "./orders.js";
import { Overlay } from "./overlay.js";
import { plotFoil } from "./plotting.js";
import { Pointer } from "./pointer.js";
import { showRefusals } from "./refusals.js";
import { say, warn } from "./say.js";
import { State } from "./state.js";
import { tellLibrary, tellNothing, tellOrder } from "./telling.js";
import { TextPane } from "./text.js";
import { TOOLS } from "./tools.js";
import { Under } from "./under.js";
import { View } from "./view.js";
import { wordsOf } from "./wire.js";

const byId = id => document.getElementById(id);
const UNSENT = "what was typed is not sent yet";

export class Desk {
  constructor() {
    this.stage = byId("stage");
    this.state = new State();
    this.view = new View();
    this.drawing = new Drawing(byId("drawing"), this.view, layers);
    this.overlay = new Overlay(byId("overlay"), this.view);
    this.under = new Under(this);
    this.text = new TextPane(this);
    this.marks = new Marks(this);
    this.shownWay = null;         // what is previewed: words, and the way where there is one
    this.tools = Object.fromEntries(Object.entries(TOOLS).map(([name, Kind]) => [name, new Kind(this)]));
    this.hold("look");
    this.pointer = new Pointer(this, this.stage);
    this.state.onTold = say;
    this.state.onAlarm = (kind, words) => warn(kind, words);
    this.state.onUnasked = (text, why) => this.showUnasked(text, why);
    this.state.onChange(what => what === "state" ? this.show() : tellLibrary(this));
    this.view.onChange(() => this.repaint());
    new ResizeObserver(() => this.view.resize(this.stage.clientWidth, this.stage.clientHeight)).observe(this.stage);
  }

  // showing

  /** The state is another one: everything is shown anew. */
  show() {
    const { state } = this, { foil, whole } = state;
    const begun = foil.begun;
    if (begun) this.view.show(foil.width, foil.height);
    if (begun || !this.isEarlier(foil)) this.drawing.show(begun ? foil : null);
    this.overlay.set({ foil: begun ? foil : null });
    tellNothing(this);
    this.text.show();
    showFoils(whole, state.at, k => this.chooseFoil(k));
    showRefusals(this, foil);
    showLists(this);
    showInk(foil);
    tellOrder(this);
    tellLibrary(this);
    this.marks.renew();
    this.under.renew();
    if (begun && this.under.point && !this.pointer.waiting) this.tool.move(this.under.point);
  }

  /** Whether the drawing is of the same foil, from before a line of its text could not be read: it stays, dimmed. */
  isEarlier(foil) {
    return foil.unread.length > 0 && this.drawing.foil !== null && this.drawing.foil.foil === foil.foil;
  }

  /** The library could not be asked at all: the text alone is shown. */
  showUnasked(text, why) {
    if (!this.text.unsent) this.text.put(text);
    const place = byId("nothing");
    place.hidden = false;
    place.classList.add("refused");
    place.textContent = "Not asked: " + why + "\nNothing is drawn. The text is whole.";
  }

  repaint() {
    this.drawing.repaint();
    this.overlay.repaint();
  }

  /** The drawing is not of the text that is seen, and why; or it is, where `words` is empty. */
  behind(words, actions = null) {
    this.state.behind = words;
    this.stage.dataset.behind = Boolean(this.drawing.foil && (words || !this.state.foil.begun));
    warn("behind", words, actions);
  }

  /** A mistake of the page itself is said too. */
  broken(failure) {
    say("A mistake of the page: " + failure.message, true);
    console.error(failure);
  }

  // tools

  /** Takes a tool into the hand. */
  hold(name) {
    if (this.tool) this.tool.drop();
    this.toolName = name;
    this.tool = this.tools[name];
    this.stage.dataset.tool = name;
    for (const made of document.querySelectorAll("[data-tool]")) {
      if (made === this.stage) continue;
      made.setAttribute("aria-checked", made.dataset.tool === name);
      made.tabIndex = made.dataset.tool === name ? 0 : -1;
    }
    this.tellHint();
  }

  tellHint() {
    byId("hint").textContent = byId("hint").title = this.tool.hint();
  }

  /** What a tool is about to do, to be drawn. */
  plan(plan) {
    this.overlay.set({ plan });
    if (!Object.keys(plan).length) this.preview("");
  }

  /** What a tool is about to do, in words; the way, where there is one. */
  preview(words, refused = false, way = null) {
    const place = byId("preview");
    place.textContent = words;
    place.classList.toggle("refused", refused);
    this.shownWay = words ? { words, refused, corners: way ? way.corners : null, way } : null;
  }

  /** The net that is given in the field, or 0. */
  netGiven() {
    return Number(byId("net").value) || 0;
  }

  /** The net to be laid: that of the field, else the lowest that is free; 0 where it could not be asked. */
  async netToLay() {
    const given = this.netGiven();
    if (given) return given;
    const envelope = await this.state.ask("free_net");
    if (!envelope.answer) say(wordsOf(envelope), true);
    else if (!envelope.answer.net) say("No number of a net is left.", true);
    return envelope.answer ? envelope.answer.net : 0;
  }

  /** A point, or the free one nearest to it where that is asked for: `{point}`, or `{why}` there is none. */
  async snapped(point) {
    if (!byId("snap").checked) return { point };
    const envelope = await this.state.ask("nearest", { x: point[0], y: point[1] });
    if (!envelope.answer) return { why: wordsOf(envelope) };
    return envelope.answer.point ? { point: envelope.answer.point } : { why: "no point is free" };
  }

  /** A net was laid: it is marked, and the field is for the next. */
  laid(net, words) {
    const made = this.state.foil.nets.find(other => other.net === net);
    this.marks.set({ nets: [net], lines: made ? made.lines : [] });
    byId("net").value = "";
    say(words);
  }

  /** Drops what was begun; where nothing was, nothing is marked any more. */
  escape() {
    if (!this.tool.drop()) this.marks.set({});
    this.stage.focus({ preventScroll: true });
    this.tellHint();
  }

  book() {
    if (this.toolName === "way") this.pointer.after(() => this.tool.book()).then(() => this.tellHint());
  }

  async lift(net) {
    const envelope = await this.change("lift", { net });
    if (envelope.answer) say(`Net ${net} lifted.`);
  }

  async liftMarked() {
    if (!this.marks.marked.nets.size) return say("No net is marked.", true);
    for (const net of [...this.marks.marked.nets]) await this.lift(net);
  }

  // changes

  /** Asks for a change of the foil that is shown, after what was typed is sent. */
  async change(name, body = {}, how = {}) {
    if (!await this.isSent()) return { fault: { kind: "behind", why: UNSENT } };
    return this.state.change(name, body, how);
  }

  /** Sends what was typed; whether that is done. */
  async isSent() {
    await this.text.send();
    if (this.text.unsent) say("Not done: " + UNSENT, true);
    return !this.text.unsent;
  }

  async undo() {
    await this.stepped(await this.change("undo"), "One step back");
  }

  async redo() {
    await this.stepped(await this.change("redo"), "One step forth");
  }

  /** A step back or forth was made: the foil that it is about is shown. */
  async stepped(envelope, words) {
    if (!envelope.answer) return;
    const { foil } = envelope.answer;
    if (foil !== this.state.at) await this.state.load(foil);
    say(`${words}, on foil ${foil}.`);
  }

  async chooseFoil(k) {
    if (!await this.isSent()) return;
    this.tool.drop();
    this.marks.set({});
    await this.state.load(k);
  }

  open() { return this.withOrder(orders.openOrders); }
  save() { return this.withOrder(orders.save); }
  saveAs() { return this.withOrder(orders.saveAs); }
  newOrder() { return this.withOrder(orders.newOrder); }
  carton() { return this.withOrder(orders.carton); }
  print() { return this.withOrder(orders.printFoil); }
  plot() { return this.withOrder(plotFoil); }
  orderForm() { return this.withOrder(orderForm); }

  /** Does something that is about the order, once it is there. */
  withOrder(act) {
    return this.state.whole ? act(this) : say("The order could not be asked for yet.", true);
  }
}
