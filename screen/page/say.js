/* What is said to the person: a line at the foot, which screen readers read out; and warnings that stay until what
they warn of is over. */
import { button } from "./elements.js";

const byId = id => document.getElementById(id);
const warnings = new Map();

/** Says something; `bad` where it was refused or could not be asked. */
export function say(words, bad = false) {
  const said = byId("said");
  said.textContent = words;
  said.classList.toggle("refused", bad);
}

/** Warns of something of a kind, or no more of it where `words` is empty. `action` has [label, function] pairs. */
export function warn(kind, words, action = null) {
  const before = warnings.get(kind);
  if (words === (before ? before.words : "")) return;
  if (words) warnings.set(kind, { words, action });
  else warnings.delete(kind);
  showWarnings();
}

/** The warnings that stand now, by kind. */
export function warningsNow() {
  return Object.fromEntries([...warnings].map(([kind, { words }]) => [kind, words]));
}

function showWarnings() {
  const place = byId("warning");
  place.replaceChildren();
  for (const [kind, { words, action }] of warnings) {
    const line = document.createElement("div");
    line.dataset.kind = kind;
    line.textContent = words;
    for (const [label, act] of action || []) line.append(button(label, act));
    place.append(line);
  }
  place.hidden = warnings.size === 0;
}

/** A number of things in words. */
export function count(many, thing, more = "s") {
  return many + " " + thing + (many === 1 ? "" : more);
}
