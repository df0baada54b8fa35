/* Forms: a whole order form of up to 40 nets, the figures of the ink, and the keys of the keyboard. */
import { openDialog } from "./dialogs.js";
import { element } from "./elements.js";
import { count, say } from "./say.js";
import { wordsOf } from "./wire.js";

const FORM = "A line for each net, up to 40: NET and x and y of its two ends; a name after #. They are laid in this "
  + "order, and one that is refused does not stop the next.";
const LINE = /^\s*(?:track\s+)?(\d+)[\s,]+(\d+)[\s,]+(\d+)[\s,]+(\d+)[\s,]+(\d+)\s*(?:#\s*(?:net:)?\s*(.*?)\s*)?$/;

/** A whole order form, a net a line; each has its answer. */
export function orderForm(desk) {
  const area = element("textarea", {});
  area.id = "wishes";
  area.setAttribute("aria-label", "Nets to be laid, a line each");
  area.placeholder = "7 10 12 40 119  # net: to pin 3";
  const keep = document.createElement("input");
  keep.type = "checkbox";
  keep.id = "keep-refused";
  const said = element("div", { kind: "said" }), answers = element("table", { kind: "answers" });
  answers.id = "answers";
  openDialog("Order form", [
    element("p", { text: FORM }),
    area, element("label", {}, keep, " keep refused ones in the text, as open"), said, answers], [
    ["Lay all", async () => {
      const { wishes, fault } = wishesOf(area.value);
      said.textContent = fault;
      if (fault) return false;
      const envelope = await desk.change("list", { wishes, keep: keep.checked }, { quiet: true });
      if (envelope.answer) showAnswers(answers, wishes, envelope.answer.ways);
      else said.textContent = wordsOf(envelope);
      return false;
    }]]);
  area.focus();
}

/** The nets of an order form; `fault` says which line cannot be read. */
function wishesOf(text) {
  const wishes = [];
  for (const [at, line] of text.split("\n").entries()) {
    if (!line.trim()) continue;
    const found = LINE.exec(line);
    if (!found) return { wishes: [], fault: `line ${at + 1} is not NET and four numbers: ${line.trim()}` };
    const [net, sx, sy, tx, ty] = found.slice(1, 6).map(Number);
    wishes.push({ net, from: [sx, sy], to: [tx, ty], ...(found[6] ? { name: found[6] } : {}) });
  }
  return { wishes, fault: wishes.length ? "" : "there is no net on the form" };
}

function showAnswers(table, wishes, ways) {
  table.replaceChildren(...ways.map((way, at) => {
    const { net, from, to } = wishes[at], refused = way.number > 0;
    const here = way.here.length ? "\nhere: " + way.here.join("; ") : "";
    const words = refused ? `refused (${way.number}): ${way.says}${here}` : `laid, ${count(way.bends, "bend")}`;
    const cells = [`net ${net}`, `${from} to ${to}`, words].map(text => element("td", { text }));
    return element("tr", { kind: refused ? "refused" : "", data: { net, number: way.number } }, ...cells);
  }));
  const many = ways.filter(way => way.number).length;
  say(`${ways.length - many} of ${ways.length} nets laid.`, many > 0);
}

// the ink

/** Ties the form of the ink to the server. */
export function listenToInk(desk) {
  const form = document.getElementById("ink");
  form.addEventListener("submit", async event => {
    event.preventDefault();
    const figures = {};
    for (const name of ["sheet", "bend", "width", "dead"]) {
      const given = form.elements[name].value.trim().replace(",", ".");
      if (given !== "" && !Number.isFinite(Number(given))) return say(`${name}: ${given} is no number`, true);
      figures[name] = given === "" ? null : Number(given);
    }
    const envelope = await desk.change("ink", figures);
    if (envelope.answer) say(envelope.answer.state.foil.ink.said || "No ink is given: no ohms are asked.");
  });
}

/** Shows the figures of the ink, and what was said of them. */
export function showInk(foil) {
  const form = document.getElementById("ink"), { ink } = foil, said = document.getElementById("ink-said");
  if (form.contains(document.activeElement)) return tellInk(said, ink);
  form.elements.sheet.value = ink.sheet ?? "";
  form.elements.bend.value = ink.bend ?? "";
  form.elements.width.value = ink.given ? ink.width : "";
  form.elements.width.placeholder = ink.width === null ? "the pen's" : `pen: ${ink.width}`;
  form.elements.dead.value = ink.dead ?? "";
  tellInk(said, ink);
}

function tellInk(said, ink) {
  said.textContent = ink.refused ? `refused (${ink.refused.number}): ${ink.refused.says}`
    : ink.sheet === null ? "no ohms: the ink's figures are not given" : ink.said;
  said.classList.toggle("refused", Boolean(ink.refused));
}

// the keys

/** A list of all keys of the keyboard. */
export function showShortcuts(shortcuts) {
  const list = element("dl");
  for (const [keys, words] of shortcuts) {
    const term = element("dt");
    for (const key of keys.split(" ")) term.append(element("kbd", { text: key }), " ");
    list.append(term, element("dd", { text: words }));
  }
  openDialog("Keys", [list]);
}
