/* Elements of the page made by script: buttons, others with a class and children, and lists that are put anew. */

/** A button with a label and what it does. */
export function button(label, act, attributes = {}) {
  const made = document.createElement("button");
  made.type = "button";
  made.textContent = label;
  for (const [name, value] of Object.entries(attributes)) made.setAttribute(name, value);
  made.addEventListener("click", act);
  return made;
}

/** An element with a class, a text and children. */
export function element(tag, { kind = "", text = "", data = {} } = {}, ...children) {
  const made = document.createElement(tag);
  if (kind) made.className = kind;
  if (text !== "") made.textContent = text;
  Object.assign(made.dataset, data);
  made.append(...children);
  return made;
}

/** Puts other items into a list; the focus and what is being typed stay where they are. */
export function renew(place, items) {
  const active = place.contains(document.activeElement) ? document.activeElement : null;
  const label = active && (active.getAttribute("aria-label") || active.textContent);
  const typed = active && active.value !== active.defaultValue ? active.value : null;
  place.replaceChildren(...items);
  if (!active) return;
  const again = [...place.querySelectorAll("button, input")]
    .find(other => (other.getAttribute("aria-label") || other.textContent) === label);
  (again || place).focus({ preventScroll: true });
  if (again && typed !== null && again.tagName === "INPUT") again.value = typed;
}
