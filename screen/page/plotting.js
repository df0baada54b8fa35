/* The plot file of a foil: its format, the size of a point where the text says none, and what is drawn. The server
makes the file, and the browser keeps it as it keeps what is downloaded. */
import { confirmed, field, openDialog } from "./dialogs.js";
import { element } from "./elements.js";
import { say } from "./say.js";
import { wordsOf } from "./wire.js";

const FORMATS = [["hpgl", "HPGL"], ["gerber", "Gerber"], ["svg", "SVG"], ["gcode", "G-code"], ["csv", "CSV"]];
const PATCHES = [["", "without patches"], ["filled", "patches filled"], ["outline", "patches as outlines"]];
const ORDERS = [["", "nets rising"], ["travel", "nearest stroke next"]];

/** Asks how the foil is to be plotted, and has the file. */
export async function plotFoil(desk) {
  await desk.text.send();
  const size = field("millimetres a point", { inputmode: "decimal", placeholder: "as the text says", id: "plot-size" });
  const format = choice("format", "plot-format", FORMATS), patches = choice("patches", "plot-patches", PATCHES);
  const order = choice("order", "plot-order", ORDERS), told = element("div", { kind: "said" });
  const value = made => made.querySelector("input, select").value.trim();
  openDialog("Plot the foil", [size, format, patches, order, told], [["Make the file", async () => {
    const envelope = await plotted(desk, { mm: value(size), format: value(format), patches: value(patches),
                                           travel: value(order) === "travel" });
    told.textContent = wordsOf(envelope);
    if (envelope.answer) keep(envelope.answer);
    return Boolean(envelope.answer);
  }]]);
}

/** The plot file; of a foil with open tracks or a net in parts only if the person says so. */
async function plotted(desk, body) {
  const envelope = await desk.state.ask("plot", body);
  if (!envelope.fault || envelope.fault.kind !== "open" || body.open) return envelope;
  const open = await confirmed("Plotted as it is?", envelope.fault.why, "Plot it as it is");
  return open ? plotted(desk, { ...body, open: true }) : envelope;
}

/** Hands a file to the browser, under its name. */
function keep({ name, content, told }) {
  const link = element("a", {});
  link.href = URL.createObjectURL(new Blob([content], { type: "application/octet-stream" }));
  link.download = name;
  link.click();
  setTimeout(() => URL.revokeObjectURL(link.href), 10000);
  say([`Plot file ${name}.`, ...told].join(" "));
}

/** A choice with a label, in a row. */
function choice(label, id, options) {
  const select = element("select", {});
  select.id = id;
  for (const [value, text] of options) select.append(new Option(text, value));
  return element("label", { kind: "row", text: label + " " }, select);
}
