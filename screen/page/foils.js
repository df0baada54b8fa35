/* The eight foils of a sheet as tabs, with how many entries each has and may still take. Arrow keys go from tab to
tab. */
import { element } from "./elements.js";

const bar = document.getElementById("foils");

/** Shows the tabs; `choose` is called with the number of a foil. */
export function showFoils(whole, shown, choose) {
  if (!bar.children.length) make(choose);
  whole.foils.forEach((foil, k) => tell(bar.children[k], foil, k === shown));
  const { entries, most, sure, each } = whole.sheet;
  bar.title = `${entries} of ${most} entries on the sheet; a foil has at most ${each} and is sure of ${sure}`;
}

function make(choose) {
  for (let k = 0; k < 8; k++) {
    const tab = element("button", { data: { foil: k } }, element("span", { text: "Foil " + k }), element("small"));
    tab.type = "button";
    tab.setAttribute("role", "tab");
    tab.setAttribute("aria-controls", "stage");
    tab.addEventListener("click", () => choose(k));
    tab.addEventListener("keydown", event => {
      const to = { ArrowLeft: k - 1, ArrowRight: k + 1, Home: 0, End: 7 }[event.key];
      if (to === undefined) return;
      event.preventDefault();
      bar.children[(to + 8) % 8].focus();
      choose((to + 8) % 8);
    });
    bar.append(tab);
  }
}

function tell(tab, foil, shown) {
  const refused = foil.refused ? ` ✗${foil.refused}` : "";
  tab.setAttribute("aria-selected", shown);
  tab.tabIndex = shown ? 0 : -1;
  tab.dataset.begun = foil.begun;
  tab.dataset.entries = foil.entries;
  tab.dataset.more = foil.more;
  tab.lastChild.textContent = !foil.read ? "not read" : foil.begun ? `${foil.entries} / ${foil.more} more${refused}`
    : foil.empty ? "empty" : "no foil";
  tab.setAttribute("aria-label", `Foil ${foil.foil}: ` + (foil.begun
    ? `${foil.entries} entries, ${foil.more} more may be taken, ${foil.refused} refused` : tab.lastChild.textContent));
}
