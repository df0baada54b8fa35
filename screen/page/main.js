/* The page of the screen: it starts here.

Modules: desk ties all together; wire and state speak with the server (screen/PROTOCOL.md), and watch sees a library
that has gone; view, drawing with labels and rulers, overlay, colours and boxes draw; pointer and shortcuts listen;
under, tools, tool, laying and patching follow the pointer and the keyboard's cursor; text is the text beside the
foil; marks, refusals, lists, foils, layers, forms, orders, dialogs, elements, telling and say are the rest.

For whoever tests the page, `window.screenState` holds what is shown, read anew at each use:

    ready, idle          the first state is shown; nothing is asked or waited for, and all is drawn
    version, foilAt      of the order that is shown; the number of the foil
    text, unsent         as it is seen; whether it was typed and is not the server's yet
    foil                 FOIL as it is drawn
    behind               the drawing is of an earlier text, dimmed: this text could not be read, or not be asked
    drawn                {tracks: [{net, legs, corners, colour}], patches: [BOX], strips: [BOX], refused: [{word, net,
                         number, start, end, box, line}]}: what is on the canvas, by the layers that are on
    under                what is shown of the point under the pointer: {point, answer, refused, took} or null; `took`
                         is in milliseconds
    lit                  the strip that is lit, a BOX, or null
    preview              {words, refused, corners} or null: what a click would do
    tool, marked         the tool held; {nets, boxes, lines}
    view                 {scale, left, top}; paints: how often the drawing was drawn
    warnings             the warnings that stand, by kind
    library, screens     as the last envelope had them; screen: the id of this tab
    pixelOf(x, y)        the place of a point's middle in the window, [clientX, clientY]
    goTo(x, y)           shows a point in the middle of the view

The list #drawn has an item for each net on the foil, with data-net, data-corners ("x,y x,y"), data-legs ("x0,y0,x1,y1
.."). Tools are buttons [data-tool], layers are boxes [data-layer], foils are tabs [data-foil]; lines of #refusals
have data-net, data-number, data-line, rows of #nets data-net and data-ohms, items of #keys data-box. body has
data-version. */
import { Desk } from "./desk.js";
import { listenToInk, showShortcuts } from "./forms.js";
import { listenToLayers, remember, remembered, setTheme, toggleTheme } from "./layers.js";
import { say } from "./say.js";
import { listenToKeys, SHORTCUTS } from "./shortcuts.js";
import { shown } from "./shown.js";
import { watch } from "./watch.js";

const byId = id => document.getElementById(id);

setTheme();
const desk = new Desk();
listenToButtons();
listenToLayers(() => desk.repaint());
listenToInk(desk);
listenToKeys(desk);
listenToPart();
listenToTools();
listenToPoint();
window.screenState = shown(desk);
window.addEventListener("error", event => desk.broken(event.error || event));
window.addEventListener("unhandledrejection", event => desk.broken(event.reason));
start();

/** Asks for the order until it is there; then watches it. */
async function start() {
  while (!(await desk.state.load(0)).answer) await new Promise(resolve => setTimeout(resolve, 1500));
  watch(desk);
}

function listenToButtons() {
  const acts = {
    new: () => desk.newOrder(), open: () => desk.open(), save: () => desk.save(), "save-as": () => desk.saveAs(),
    carton: () => desk.carton(), print: () => desk.print(), plot: () => desk.plot(),
    undo: () => desk.undo(), redo: () => desk.redo(),
    "zoom-in": () => desk.view.zoom(1.3), "zoom-out": () => desk.view.zoom(1 / 1.3), "zoom-fit": () => desk.view.fit(),
    theme: () => { toggleTheme(); desk.show(); desk.repaint(); }, help: () => showShortcuts(SHORTCUTS),
    "order-form": () => desk.orderForm(),
  };
  for (const [id, act] of Object.entries(acts)) byId(id).addEventListener("click", act);
  for (const made of document.querySelectorAll("[data-key]")) {
    made.setAttribute("aria-keyshortcuts", spoken(made.dataset.key));
  }
}

/** A key as screen readers are told of it. */
function spoken(key) {
  return key.replace("Ctrl", "Control").replace(/^\+$/, "Plus");
}

/** The tools by click, and by arrow keys among them. */
function listenToTools() {
  const all = [...document.querySelectorAll("button[data-tool]")];
  all.forEach((made, at) => {
    made.addEventListener("click", () => desk.hold(made.dataset.tool));
    made.addEventListener("keydown", event => {
      const by = { ArrowLeft: -1, ArrowRight: 1 }[event.key];
      if (!by) return;
      event.preventDefault();
      const next = all[(at + by + all.length) % all.length];
      desk.hold(next.dataset.tool);
      next.focus();
    });
  });
}

/** The field for a point: Enter puts the cursor there. */
function listenToPoint() {
  byId("go").addEventListener("submit", event => {
    event.preventDefault();
    const found = /^\s*(\d+)\D+(\d+)\s*$/.exec(byId("point").value);
    if (!found || !desk.marks.goToPoint([Number(found[1]), Number(found[2])])) {
      say(`${byId("point").value || "nothing"}: no point of this foil, as in 12 40`, true);
    }
  });
}

/** The bar between text and foil: dragged, or moved by arrow keys. */
function listenToPart() {
  const part = byId("part-left"), main = document.querySelector("main");
  const put = wide => {
    const kept = Math.round(Math.min(Math.max(wide, 160), Math.max(window.innerWidth - 560, 160)));
    main.style.setProperty("--text-wide", kept + "px");
    part.setAttribute("aria-valuenow", kept);
    remember("wide", kept);
  };
  if (remembered("wide")) put(remembered("wide"));
  part.addEventListener("pointerdown", event => part.setPointerCapture(event.pointerId));
  part.addEventListener("pointermove", event => {
    if (part.hasPointerCapture(event.pointerId)) put(event.clientX);
  });
  part.addEventListener("keydown", event => {
    const by = { ArrowLeft: -20, ArrowRight: 20 }[event.key];
    if (by) put(Number(part.getAttribute("aria-valuenow")) + by);
  });
}
