/* The dialog of the page: one at a time, with a head, a body and buttons. Escape closes it. */
import { button, element } from "./elements.js";

const place = document.getElementById("dialog");

/** Opens the dialog with a body; the buttons are [label, function] pairs, the first being the main one. A function that
gives back false leaves the dialog open. */
export function openDialog(head, body, buttons = []) {
  const foot = element("div", { kind: "foot" });
  const form = element("form", {}, element("h2", { text: head }), ...body, foot);
  form.querySelector("h2").id = "dialog-head";
  form.method = "dialog";
  buttons.forEach(([label, act], at) => {
    const made = button(label, () => run(act), at ? {} : { class: "primary" });
    foot.append(made);
    if (!at) form.addEventListener("submit", event => { event.preventDefault(); run(act); });
  });
  foot.append(button("Close", closeDialog, { id: "dialog-close" }));
  place.replaceChildren(form);
  if (!place.open) place.showModal();
  return form;
}

async function run(act) {
  if (await act() !== false) closeDialog();
}

export function closeDialog() {
  if (place.open) place.close();
}

export function dialogOpen() {
  return place.open;
}

/** A field with a label, in a row. */
export function field(label, attributes = {}) {
  const input = document.createElement("input");
  for (const [name, value] of Object.entries(attributes)) input.setAttribute(name, value);
  return element("label", { kind: "row", text: label + " " }, input);
}

/** Asks a question with one yes; whether it was said. */
export function confirmed(head, words, yes) {
  return new Promise(resolve => {
    const form = openDialog(head, [element("p", { text: words })], [[yes, () => resolve(true)]]);
    const closed = () => {
      // the browser can tell of an earlier dialog's close when this one is open already
      if (place.open && place.contains(form)) return;
      place.removeEventListener("close", closed);
      resolve(false);
    };
    place.addEventListener("close", closed);
  });
}
