/* The lists of nets and keys beside the foil, with names that can be given, lengths and ohms; and the tracks as a
list for screen readers. A click goes there. */
import { around } from "./boxes.js";
import { colours, DASHES } from "./colours.js";
import { button, element, renew } from "./elements.js";
import { count } from "./say.js";

const byId = id => document.getElementById(id);
const at = ([x, y]) => x + "," + y;
const shownAs = new Map();

/** The lists of a foil. */
export function showLists(desk) {
  const { foil } = desk.state, tones = colours();
  if (isOther("nets", [foil.nets, tones.dark])) showNets(desk, foil, tones);
  if (isOther("keys", foil.patches)) showKeys(desk, foil);
}

/** Whether a list is to show something else than it does. */
function isOther(list, what) {
  const key = JSON.stringify(what), same = shownAs.get(list) === key;
  shownAs.set(list, key);
  return !same;
}

function showNets(desk, foil, tones) {
  const body = byId("nets").tBodies[0];
  byId("nets-count").textContent = foil.nets.length || "";
  renew(body, foil.nets.map(net => netRow(desk, net, tones)));
  showDrawn(foil);
}

function netRow(desk, net, tones) {
  const there = () => desk.marks.goTo(around(net.legs), { nets: [net.net], lines: net.lines });
  const go = button(net.net, there, { class: "go" });
  go.prepend(swatch(net, tones));
  const name = nameInput(net.name, `Name of net ${net.net}`,
                         given => desk.change("name", { net: net.net, name: given }));
  const ohms = net.ohms === null ? "–" : net.ohms.toFixed(3) + (net.dead ? " dead" : "");
  const cells = [go, name, net.legs.length, net.length, ohms].map(what => element("td", {}, what));
  cells[4].classList.toggle("dead", net.dead);
  return element("tr", { data: { net: net.net, ohms: net.ohms ?? "", dead: net.dead } }, ...cells);
}

/** A small picture of a net's colour and dash. */
function swatch(net, tones) {
  const made = document.createElement("canvas"), pen = made.getContext("2d");
  made.width = 40;
  made.height = 24;
  pen.fillStyle = tones.nets[net.colour];
  pen.fillRect(0, 0, 40, 24);
  if (DASHES[net.colour].length) {
    pen.strokeStyle = tones.sheet;
    pen.lineWidth = 3;
    pen.setLineDash(DASHES[net.colour].map(pixels => 2 * pixels));
    pen.beginPath();
    pen.moveTo(0, 12);
    pen.lineTo(40, 12);
    pen.stroke();
  }
  return made;
}

/** A field for a name, which is sent when it is left or Enter is pressed. */
function nameInput(name, label, send) {
  const made = document.createElement("input");
  made.value = made.defaultValue = name;
  made.setAttribute("aria-label", label);
  made.maxLength = 40;
  made.placeholder = "name";
  made.addEventListener("change", async () => {
    const envelope = await send(made.value.trim());
    if (!envelope.answer) made.value = name;
  });
  return made;
}

function showKeys(desk, foil) {
  byId("keys-count").textContent = foil.patches.length || "";
  renew(byId("keys"), foil.patches.map(patch => keyItem(desk, patch)));
}

function keyItem(desk, patch) {
  const box = patch.box.join(" ");
  const name = nameInput(patch.name, `Name of the key ${box}`,
                         given => desk.change("name", { box: patch.box, name: given }));
  const there = () => desk.marks.goTo(patch.box, { boxes: [patch.box], lines: [patch.line] });
  const go = button(box, there, { class: "go" });
  return element("li", { data: { box: patch.box.join(",") } }, go, name);
}

/** The tracks that are drawn, as a list that is heard and not seen. */
function showDrawn(foil) {
  byId("drawn").replaceChildren(...foil.nets.map(net => element("li", {
    text: `net ${net.net} ${net.name}: `
      + (net.corners ? net.corners.map(at).join(", ") : count(net.legs.length, "leg")),
    data: { net: net.net, corners: net.corners ? net.corners.map(at).join(" ") : "",
            legs: net.legs.map(leg => leg.join(",")).join(" "), bends: net.bends ?? "", length: net.length },
  })));
}

/** Says in the lists which nets and boxes are marked. */
export function markLists({ nets, boxes }) {
  for (const row of byId("nets").tBodies[0].rows) {
    row.setAttribute("aria-current", nets.has(Number(row.dataset.net)));
  }
  const marked = new Set(boxes.map(box => box.join(",")));
  for (const line of byId("keys").children) line.setAttribute("aria-current", marked.has(line.dataset.box));
}
