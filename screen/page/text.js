/* The text of the foil beside the drawing: lines are numbered, refused ones marked, and the line of what is marked in
the drawing too. What is typed is sent when the typing rests for a moment. Until the server has run it, the drawing is
that of an earlier text, and the page says so. Text that could not be sent stays where it was typed. */
import { wordsOf } from "./wire.js";

const LINE = 19;                  // the height of a line in pixels, as in style.css
const PAD = 4;                    // above the first line
const AGAIN = 3000;               // milliseconds after which a text that could not be sent is sent again
const REST = 220;                 // milliseconds after the last key

export class TextPane {
  constructor(desk) {
    this.desk = desk;
    this.area = document.getElementById("text");
    this.gutter = document.getElementById("gutter");
    this.marks = document.getElementById("line-marks");
    this.said = document.getElementById("line-said");
    this.unsent = false;          // what is seen was typed and is not yet the server's
    this.base = "";               // the text that it was typed into
    this.sending = null;
    this.timer = 0;
    this.lines = new Set();       // the marked lines
    this.listen();
  }

  listen() {
    this.area.addEventListener("input", () => this.typed());
    this.area.addEventListener("scroll", () => this.paint());
    for (const name of ["keyup", "click", "focus"]) this.area.addEventListener(name, () => this.caretMoved());
    this.gutter.addEventListener("click", event => this.gutterClicked(event));
    new ResizeObserver(() => this.paint()).observe(this.area);
    window.addEventListener("beforeunload", event => {
      if (this.unsent) event.preventDefault();
    });
  }

  /** The state is another one: the text is the server's, unless something is typed that it has not got. */
  show() {
    const { foil } = this.desk.state;
    const lines = new Map();
    for (const row of foil.rows) if (row.line) lines.set(row.line, [...(lines.get(row.line) || []), row]);
    this.rows = lines;
    this.unread = new Map(foil.unread.map(fault => [fault.line, fault.why]));
    if (!this.unsent) this.put(foil.text);
    this.area.disabled = false;
    this.paint();
    this.tellLine();
  }

  /** Puts a text in place of what is there, and keeps caret and scrolling. */
  put(text) {
    this.base = text;
    if (this.area.value === text) return;
    const { selectionStart, scrollTop, scrollLeft } = this.area;
    this.area.value = text;
    this.area.setSelectionRange(selectionStart, selectionStart);
    this.area.scrollTop = scrollTop;
    this.area.scrollLeft = scrollLeft;
  }

  typed() {
    this.unsent = true;
    clearTimeout(this.timer);
    this.timer = setTimeout(() => this.send(), REST);
    this.paint();
  }

  /** Sends what was typed, where it is not sent yet; resolves when that is done or has failed. */
  async send() {
    clearTimeout(this.timer);
    while (this.unsent && this.sending) await this.sending;
    if (!this.unsent) return;
    this.sending = this.sendNow().finally(() => { this.sending = null; });
    await this.sending;
  }

  async sendNow() {
    const text = this.area.value, { state } = this.desk;
    if (!state.foil) return this.later("the order could not be asked for yet");
    if (state.foil.text !== this.base) return this.tellMet();
    const envelope = await state.change("text", { text }, { quiet: true });
    if (!envelope.answer) return this.failed(envelope);
    this.base = text;
    this.unsent = this.area.value !== text;
    this.show();
    this.desk.behind("");
  }

  /** The text could not be sent: it stays, and the page says that the drawing is not of it. */
  async failed(envelope) {
    if (envelope.fault && envelope.fault.kind === "stale") {
      const loaded = await this.desk.state.load();
      if (loaded.answer) return this.sendNow();
    }
    this.later(wordsOf(envelope));
  }

  /** Says why what was typed is not sent, and sends it again after a while. */
  later(why) {
    this.desk.behind("What was typed is not asked yet: " + why, [["Send again", () => this.send()]]);
    this.timer = setTimeout(() => this.send(), AGAIN);
  }

  /** The text was changed elsewhere while it was typed into: which of the two it is to be is for the person to say. */
  tellMet() {
    const { state } = this.desk;
    this.desk.behind("This text was changed elsewhere while you typed. What you typed is kept here, and is not sent.", [
      ["Send mine", () => { this.base = state.foil.text; this.send(); }],
      ["Take theirs", () => { this.unsent = false; this.desk.behind(""); this.desk.show(); }]]);
  }

  // lines

  /** The number of the line that the caret is on, from 1. */
  get caretLine() {
    return this.area.value.slice(0, this.area.selectionStart).split("\n").length;
  }

  caretMoved() {
    const line = this.caretLine;
    if (line === this.told && !this.unsent) return;
    this.desk.marks.setLine(line);
    this.tellLine();
  }

  gutterClicked(event) {
    const line = Number(event.target.dataset.line);
    if (line) this.desk.marks.goToLine(line);
  }

  /** What came of the caret's line, below the text. */
  tellLine() {
    const line = this.told = this.caretLine, rows = (this.rows && this.rows.get(line)) || [];
    const unread = this.unread && this.unread.get(line);
    this.said.textContent = unread ? `line ${line}: cannot be read: ${unread}`
      : rows.map(row => `${row.said}: ${row.words.join("\n")}`).join("\n") || `line ${line}`;
    this.said.classList.toggle("refused", Boolean(unread) || rows.some(row => row.refused));
  }

  /** Marks lines, and shows the first of them. */
  mark(lines, scroll) {
    this.lines = new Set(lines);
    if (scroll && lines.length) this.reveal(Math.min(...lines));
    this.paint();
  }

  reveal(line) {
    const top = PAD + (line - 1) * LINE, { scrollTop, clientHeight } = this.area;
    if (top < scrollTop || top + LINE > scrollTop + clientHeight) this.area.scrollTop = top - clientHeight / 2;
  }

  /** Puts the caret on a line, and shows it. */
  goTo(line) {
    const before = this.area.value.split("\n").slice(0, line - 1);
    const place = before.reduce((sum, text) => sum + text.length + 1, 0);
    this.area.setSelectionRange(place, place);
    this.reveal(line);
    this.tellLine();
  }

  /** Draws the numbers and the grounds of the lines that are seen. */
  paint() {
    const { scrollTop, clientHeight } = this.area, many = this.area.value.split("\n").length;
    const first = Math.max(Math.floor((scrollTop - PAD) / LINE), 0);
    const last = Math.min(first + Math.ceil(clientHeight / LINE) + 1, many);
    const numbers = [], grounds = [];
    for (let line = first + 1; line <= last; line++) {
      numbers.push(this.numberOf(line));
      const kind = this.groundOf(line);
      if (kind) grounds.push(this.ground(kind, PAD + (line - 1) * LINE - scrollTop));
    }
    if (numbers.length) numbers[0].style.marginTop = first * LINE - scrollTop + "px";
    this.gutter.replaceChildren(...numbers);
    this.gutter.style.minWidth = String(many).length * 9 + 44 + "px";
    this.marks.replaceChildren(...grounds);
  }

  /** The number of a line, with a sign for what came of it. */
  numberOf(line) {
    const made = document.createElement("span"), rows = this.unsent ? [] : (this.rows && this.rows.get(line)) || [];
    const refused = rows.find(row => row.refused);
    const unread = !this.unsent && this.unread && this.unread.has(line);
    made.textContent = (unread ? "? " : refused ? "✗ " : rows.length ? "✓ " : "") + line;
    made.className = unread || refused ? "refused" : rows.length ? "accepted" : "";
    made.dataset.line = line;
    return made;
  }

  groundOf(line) {
    if (this.lines.has(line)) return "marked";
    if (this.unsent || !this.rows) return "";
    if (this.unread.has(line) || (this.rows.get(line) || []).some(row => row.refused)) return "refused";
    return "";
  }

  ground(kind, top) {
    const made = document.createElement("div");
    made.className = kind;
    made.style.top = top + "px";
    return made;
  }
}
