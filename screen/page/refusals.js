/* The list of what was refused, is open or is to be checked. A click on a line goes there; of an open track, and of a
patch that is not on the foil, each single lift can be tried. */
import { pointBox, spanned, widened } from "./boxes.js";
import { button, element, renew } from "./elements.js";
import { count, say } from "./say.js";
import { refusalWords, wordsOf } from "./wire.js";

const byId = id => document.getElementById(id);
const at = ([x, y]) => x + "," + y;
const PUT = ["open", "not on the foil"];   // matters of the check list that stand here in other words

/** Shows the list of a foil. */
export function showRefusals(desk, foil) {
  const items = [...foil.unread.map(fault => lineItem(desk, fault.line, "cannot be read: " + fault.why))];
  if (foil.fault && !foil.rows.some(row => row.refused && row.line && row.line === foil.fault.line)) {
    items.push(faultItem(desk, foil.fault));
  }
  items.push(...foil.refused.map(step => step.word === "track" ? openItem(desk, step) : missingItem(desk, step)));
  const listed = new Set(foil.refused.map(step => step.line));
  for (const row of foil.rows) {
    if (row.refused && row.line && !listed.has(row.line)) items.push(rowItem(desk, row));
  }
  for (const check of foil.checks) if (!PUT.includes(check.matter)) items.push(checkItem(desk, check));
  for (const stray of foil.strays) items.push(lineItem(desk, stray.line, stray.why));
  byId("refusals-count").textContent = items.length ? items.length : "";
  renew(byId("refusals"), items.length ? items : [element("li", { kind: "empty", text: "nothing" })]);
}

/** A line of the list: a button that goes there, and others beside it. */
function item(kind, number, words, go, ...buttons) {
  const main = button("", go, { class: "go" });
  if (number) main.append(element("b", { text: `(${number}) ` }));
  main.append(words);
  return element("li", { kind, data: { number: number || "" } }, main, ...buttons);
}

function lineItem(desk, line, words) {
  return item("of-line", 0, (line ? `line ${line}: ` : "") + words, () => line && desk.marks.goToLine(line));
}

/** What the text as a whole lacks: what to do, and a line `end` to be added where it has none. */
function faultItem(desk, fault) {
  const words = [fault.says, ...fault.here].join("; ") + "\nwhat to do: " + fault.to_do;
  const last = () => fault.line || desk.text.area.value.trimEnd().split("\n").length;
  const add = fault.unended ? [button("Add end", () => addEnd(desk), { title: "Adds a last line `end` to the text" })]
    : [];
  return item("of-fault", fault.number, words, () => desk.marks.goToLine(last()), ...add);
}

async function addEnd(desk) {
  const envelope = await desk.change("end");
  if (envelope.answer) say("A last line `end` was added.");
}

function rowItem(desk, row) {
  const words = `line ${row.line}: ${row.said}: ${row.words.join("\n")}`;
  const made = item("of-row", 0, words, () => desk.marks.goToLine(row.line), dropButton(desk, row.line));
  made.dataset.line = row.line;
  return made;
}

function checkItem(desk, check) {
  return item("of-check", 0, `${check.matter}: ${check.where}`,
              () => check.at && desk.marks.goTo(widened(pointBox(check.at), 4), { boxes: [pointBox(check.at)] }));
}

/** A track that is open: where it is, what would help, and the line taken out. */
function openItem(desk, step) {
  const name = step.name ? ` (${step.name})` : "";
  const words = `net ${step.net}${name} from ${at(step.from)} to ${at(step.to)}: ${step.says}`;
  const made = item("of-open", step.number, words, () => goToStep(desk, step, spanned(step.from, step.to)),
                    helpButton(desk, step, { from: step.from, to: step.to, net: step.net }),
                    dropButton(desk, step.line));
  Object.assign(made.dataset, { net: step.net, from: at(step.from), to: at(step.to), line: step.line });
  return made;
}

function missingItem(desk, step) {
  const words = `${step.word} ${step.net ? step.net + " " : ""}${step.box.join(" ")}: ${step.says}`;
  const help = step.word === "patch" ? [helpButton(desk, step, { box: step.box })] : [];
  const made = item("of-missing", step.number, words, () => goToStep(desk, step, step.box), ...help,
                    dropButton(desk, step.line));
  Object.assign(made.dataset, { box: step.box.join(","), line: step.line });
  return made;
}

function goToStep(desk, step, box) {
  const words = `line ${step.line}: refused (${step.number}): ${step.says}`;
  desk.marks.goTo(box, { boxes: [box], lines: [step.line], words });
}

function dropButton(desk, line) {
  return button("Take out", () => desk.change("drop", { line }),
                { title: "Takes the line out of the text", "aria-label": `Take out line ${line}` });
}

/** Asks which single lift would open a way, each tried; the answer stands below the line. */
function helpButton(desk, step, asked) {
  return button("Which lift?", async event => {
    const place = event.target.closest("li");
    const envelope = await desk.state.ask("opens", asked);
    place.querySelector(".helps")?.remove();
    place.append(helpOf(desk, step, envelope));
  }, { title: "Tries each single lift", "aria-label": `Which lift? For line ${step.line}` });
}

function helpOf(desk, step, envelope) {
  const made = element("div", { kind: "helps" });
  if (!envelope.answer) return Object.assign(made, { textContent: wordsOf(envelope) });
  const { lifts, tried } = envelope.answer;
  made.textContent = lifts.length ? "" : `no lift of a single net opens it (${tried} tried)`;
  for (const lift of lifts) {
    const figures = lift.bends === null ? "" : `: ${count(lift.bends, "bend")}, length ${lift.length}`;
    const line = element("div", { text: `works if net ${lift.net} is lifted${figures} `, data: { lift: lift.net } });
    if (step.word === "track") line.append(button("Do it", () => relay(desk, step, lift.net)));
    made.append(line);
  }
  return made;
}

/** Lifts a net, lays the open track, and lays the lifted one again. */
async function relay(desk, step, lift) {
  const { net, from, to, name } = step;
  const envelope = await desk.change("relay", { lift, net, from, to, ...(name ? { name } : {}) });
  if (!envelope.answer) return;
  const { again } = envelope.answer;
  desk.marks.set({ nets: [net] });
  say(`Net ${net} laid; net ${lift} ` + (again ? "stays open: " + refusalWords(again) : "laid again."), Boolean(again));
}
