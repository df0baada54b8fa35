/* Orders: open a past one, begin another, copy one as a template, save under a name, look at what a save writes, the
carton's page, and a print at a given size of a point. */
import { closeDialog, confirmed, field, openDialog } from "./dialogs.js";
import { remember, remembered } from "./layers.js";
import { button, element } from "./elements.js";
import { count, say } from "./say.js";
import { wordsOf } from "./wire.js";

const FILES = [["text", "text"], ["job", "job file"], ["picture", "picture"], ["slip", "slip"]];

/** Makes a change that may lose or write over something: asks the person where the server says so. What is written
over is what the person was told of: where that is another by then, it is asked again. */
async function daring(desk, name, body) {
  const envelope = await desk.change(name, body, { quiet: true });
  const { kind, why, digest } = envelope.fault || {};
  if (kind === "unsaved") {
    const lost = await confirmed("Changes are not saved", why, "Give them up");
    return lost ? daring(desk, name, { ...body, discard: true }) : envelope;
  }
  if (kind === "taken") {
    const over = await confirmed("Written over?", why, "Write over it");
    return over ? daring(desk, name, { ...body, over: digest }) : envelope;
  }
  if (!envelope.answer) say(wordsOf(envelope), true);
  return envelope;
}

/** The past orders: open one, or copy it as a template. */
export async function openOrders(desk) {
  const envelope = await desk.state.ask("orders");
  if (!envelope.answer) return say(wordsOf(envelope), true);
  const { orders, folder } = envelope.answer, list = element("ul", { kind: "choices" });
  for (const order of orders) list.append(orderItem(desk, order));
  const none = orders.length ? [] : [element("p", { text: "There are none yet." })];
  openDialog("Past orders in " + folder, [...none, list]);
}

function orderItem(desk, order) {
  const here = order.name === desk.state.whole.order.name;
  const told = `${order.name}, ${order.changed}, ${count(order.foils, "foil")}`
    + (order.open && !here ? ", another screen has it open" : "")
    + (order.draft ? ", with changes that were never saved" : "");
  const open = button(told, async () => { closeDialog(); await opened(desk, "open", order.name); });
  const copy = button("As template", async () => { closeDialog(); await opened(desk, "template", order.name); });
  return element("li", { data: { order: order.name } }, open, copy);
}

async function opened(desk, how, name) {
  const envelope = await daring(desk, how, { name, foil: 0 });
  if (envelope.answer) say(how === "open" ? `Order ${name} opened.` : `A new order, with the texts of ${name}.`);
}

/** A new order, or a new foil in the one that is open. */
export function newOrder(desk) {
  const { state } = desk, board = state.foil.board || { width: 122, height: 122, half: 0, gap: 2 };
  const number = (label, value, most, least = 0) =>
    field(label, { type: "number", value, min: least, max: most, required: "" });
  const told = state.foil.begun ? "The board of this foil is changed; its steps stay." : "An empty foil is begun.";
  const fields = [number("points across", board.width, 4096, 1), number("points down", board.height, 4096, 1),
                  number("pen: half width", board.half, 7), number("pen: gap, or reach", board.gap, 15)];
  const values = () => fields.map(made => Number(made.querySelector("input").value));
  openDialog(`Foil ${state.at}`, [
    element("p", { text: told }), ...fields], [
    ["Begin the foil", async () => {
      const [width, height, half, gap] = values();
      const envelope = await desk.change("begin", { width, height, half, gap });
      return Boolean(envelope.answer);
    }],
    ["Copy another foil…", () => { copyFoil(desk); return false; }],
    ["New order", async () => {
      closeDialog();
      const envelope = await daring(desk, "new", {});
      if (envelope.answer) say("A new order.");
    }]]);
}

function copyFoil(desk) {
  const list = element("ul", { kind: "choices" });
  for (const foil of desk.state.whole.foils) {
    if (foil.empty || foil.foil === desk.state.at) continue;
    list.append(element("li", {}, button(`Foil ${foil.foil}, ${foil.entries} entries`, async () => {
      closeDialog();
      await desk.change("copy_foil", { from: foil.foil });
    })));
  }
  const none = element("p", { text: "No other foil has a text." });
  openDialog(`Copy to foil ${desk.state.at}`, [list.children.length ? list : none]);
}

/** Saves under the order's name, or asks for one. */
export async function save(desk) {
  const { name } = desk.state.whole.order;
  if (!name) return saveAs(desk);
  saved(desk, await daring(desk, "save", {}));
}

/** Saves under a name, and shows what is written. */
export function saveAs(desk) {
  const name = field("name of the order", { value: desk.state.whole.order.name, maxlength: 60, id: "save-name" });
  const links = element("p", { text: "To look at: " });
  for (const [kind, called] of FILES) links.append(fileLink(desk, kind, called), " ");
  const told = element("div", { kind: "said" });
  openDialog("Save the order", [name, links, told], [["Save", async () => {
    const envelope = await daring(desk, "save", { name: name.querySelector("input").value.trim() });
    told.textContent = wordsOf(envelope);
    saved(desk, envelope);
    return !(envelope.fault && envelope.fault.kind === "name");
  }]]);
}

function fileLink(desk, kind, called) {
  const link = element("a", { text: called, data: { file: kind } });
  link.href = `file/${kind}?foil=${desk.state.at}&screen=${desk.state.wire.screen}`;
  link.target = "_blank";
  return link;
}

function saved(desk, envelope) {
  if (!envelope.answer) return;
  const { files, without } = envelope.answer;
  const lacking = without && without.length ? " To note: " + without.join("; ") : "";
  say(`Saved: ${files.join(", ")}.${lacking}`, Boolean(lacking));
}

/** The carton's page, in a tab of its own. */
export async function carton(desk) {
  await desk.text.send();
  window.open(`print/carton?foil=${desk.state.at}&screen=${desk.state.wire.screen}`, "_blank");
}

/** A print at a given size of a point, in a tab of its own. */
export function printFoil(desk) {
  const size = field("millimetres a point", { type: "number", min: 0.05, max: 20, step: "any", id: "print-size",
                                              value: remembered("point") || 0.5, required: "" });
  const told = element("p", {}), input = size.querySelector("input"), { width, height } = desk.state.foil;
  const tell = () => {
    told.textContent = `The foil is then ${tenths(width * input.value)} by ${tenths(height * input.value)} mm.`;
  };
  input.addEventListener("input", tell);
  tell();
  openDialog("Print the foil", [size, told], [["Open the page", () => {
    remember("point", Number(input.value));
    const { at, wire } = desk.state;
    window.open(`print/foil?foil=${at}&mm=${Number(input.value)}&screen=${wire.screen}`, "_blank");
  }]]);
}

function tenths(millimetres) {
  return Math.round(millimetres * 10) / 10;
}
