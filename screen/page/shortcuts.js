/* The keys of the keyboard that hold wherever the focus is, but for fields in which something is typed: there, undo and
redo are those of the field too. */
import { dialogOpen } from "./dialogs.js";
import { showShortcuts } from "./forms.js";
import { toggleLayer } from "./layers.js";

const PAN = 80;                   // pixels

export const SHORTCUTS = [
  ["Arrows", "move the cursor on the foil; with Shift ten points"],
  [".", "goes to a point, by its x and y"],
  ["Enter", "a click on the point under the cursor"],
  ["Escape", "drops what was begun; then: marks nothing"],
  ["Backspace", "takes the last corner of a way back"],
  ["V T W P M J L", "look, lay a track, draw a way, patch, move a key, join, lift"],
  ["B", "books the way that is drawn"],
  ["S", "nearest free point on and off"],
  ["N", "the net to be laid next"],
  ["Delete", "lifts the marked nets"],
  ["F", "the order form"],
  ["G", "goes to the next that is refused or open"],
  ["+ - 0", "larger, smaller, the whole foil"],
  ["A D X E", "moves the view left, right, down, up"],
  ["1 2 3 4", "layers: strips, clearance, blocked, refused"],
  ["Ctrl+Z Ctrl+Y", "undo, redo; in a field, and in the text, those of what is typed there"],
  ["Ctrl+O Ctrl+S Ctrl+P", "past orders, save, print"],
  ["[ ]", "the foil before, the next one; also Alt+0 to Alt+7"],
  ["I", "to the text; Escape goes back to the foil"],
  ["C", "light or dark"],
  ["?", "this list"],
];

/** Listens to the whole page. */
export function listenToKeys(desk) {
  document.addEventListener("keydown", event => {
    if (dialogOpen() || event.defaultPrevented) return;
    const act = event.ctrlKey || event.metaKey ? withCtrl(desk, event) : event.altKey ? withAlt(desk, event)
      : plain(desk, event);
    if (!act) return;
    event.preventDefault();
    act();
  });
}

function withCtrl(desk, event) {
  const key = event.key.toLowerCase();
  if ((key === "z" || key === "y") && isTyped(event.target)) return null;
  if (key === "z") return event.shiftKey ? () => desk.redo() : () => desk.undo();
  if (key === "y") return () => desk.redo();
  return { s: () => desk.save(), o: () => desk.open(), p: () => desk.print() }[key];
}

function withAlt(desk, event) {
  const digit = /^Digit([0-7])$/.exec(event.code);
  return digit && (() => desk.chooseFoil(Number(digit[1])));
}

function plain(desk, event) {
  if (event.key === "Escape") return () => desk.escape();
  if (isTyped(event.target)) return null;
  const key = event.key.length === 1 ? event.key.toLowerCase() : event.key;
  const tools = { v: "look", t: "lay", w: "way", p: "patch", m: "move", j: "join", l: "lift" };
  if (tools[key]) return () => desk.hold(tools[key]);
  const layers = ["strips", "clearance", "blocked", "refused"];
  if (/^[1-4]$/.test(key)) return () => toggleLayer(layers[key - 1]);
  return {
    "+": () => desk.view.zoom(1.3), "=": () => desk.view.zoom(1.3), "-": () => desk.view.zoom(1 / 1.3),
    0: () => desk.view.fit(), a: () => desk.view.pan(-PAN, 0), d: () => desk.view.pan(PAN, 0),
    e: () => desk.view.pan(0, -PAN), x: () => desk.view.pan(0, PAN), b: () => desk.book(),
    s: () => document.getElementById("snap").click(), n: () => document.getElementById("net").focus(),
    ".": () => document.getElementById("point").select(),
    "[": () => desk.chooseFoil((desk.state.at + 7) % 8), "]": () => desk.chooseFoil((desk.state.at + 1) % 8),
    i: () => desk.text.area.focus(), c: () => document.getElementById("theme").click(),
    f: () => desk.orderForm(), g: () => desk.marks.goToNext(), Delete: () => desk.liftMarked(),
    Backspace: () => desk.tool.back(), "?": () => showShortcuts(SHORTCUTS),
  }[key] || null;
}

/** Whether keys are typed into an element. */
function isTyped(element) {
  return element.matches("textarea, select, input:not([type=checkbox]):not([type=radio])");
}
