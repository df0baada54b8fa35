/* Layers on and off, and light or dark. What was chosen is kept for the next time. */

const KEPT = "foil-screen";
const root = document.documentElement;
const kept = read();

export const layers = { strips: true, clearance: true, blocked: true, refused: true, ...kept.layers };

/** Ties the boxes of the layers to the layers; `changed` is called after each. */
export function listenToLayers(changed) {
  for (const box of document.querySelectorAll("[data-layer]")) {
    box.checked = layers[box.dataset.layer];
    box.addEventListener("change", () => {
      layers[box.dataset.layer] = box.checked;
      keep();
      changed();
    });
  }
}

/** Turns a layer on or off. */
export function toggleLayer(name) {
  document.querySelector(`[data-layer="${name}"]`).click();
}

/** Light or dark: as it was chosen, or as the system has it. */
export function setTheme(theme = kept.theme || systemTheme()) {
  root.dataset.theme = theme;
  document.getElementById("theme").textContent = theme === "dark" ? "Light" : "Dark";
}

export function toggleTheme() {
  kept.theme = root.dataset.theme === "dark" ? "light" : "dark";
  setTheme();
  keep();
}

/** A figure that is kept for the next time, as the width of the text. */
export function remember(name, value) {
  kept[name] = value;
  keep();
}

export function remembered(name) {
  return kept[name];
}

function systemTheme() {
  return matchMedia("(prefers-color-scheme: dark)").matches ? "dark" : "light";
}

function read() {
  try {
    return JSON.parse(localStorage.getItem(KEPT)) || {};
  } catch {
    return {};
  }
}

function keep() {
  try {
    localStorage.setItem(KEPT, JSON.stringify({ ...kept, layers }));
  } catch {
    // a browser that keeps nothing has the layers as they are at first
  }
}
