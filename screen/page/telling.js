/* What the page tells of the order, of the library and of a foil that is not to be drawn. */
import { count, warn } from "./say.js";

const byId = id => document.getElementById(id);
let seen = "";                    // the draft whose notice was put away

/** Where there is no foil to be drawn, why not; over an earlier drawing, or that of a file at fault, at its foot. */
export function tellNothing(desk) {
  const { foil } = desk.state, place = byId("nothing"), drawn = Boolean(desk.drawing.foil);
  place.hidden = foil.begun && !foil.fault;
  place.classList.toggle("refused", Boolean(foil.unread.length || foil.fault));
  place.classList.toggle("earlier", drawn);
  desk.stage.dataset.behind = drawn && Boolean(desk.state.behind || !foil.begun);
  place.textContent = foil.unread.length ? "Nothing is asked of this text: a line of it cannot be read.\n"
      + foil.unread.map(fault => `line ${fault.line}: ${fault.why}`).join("\n")
    : foil.fault ? `${foil.begun ? "Drawn is what was done up to here" : "There is no foil"} (${foil.fault.number}): `
      + `${foil.fault.says}\n${foil.fault.to_do}`
      : "This foil is not begun.\nNew… begins it, or type its board into the text.";
}

/** The order that is open, its steps back and forth, and what there is to know of it. */
export function tellOrder(desk) {
  const { order, undo, redo, version } = desk.state.whole, name = byId("order-name");
  name.textContent = order.name || "new order";
  name.dataset.changed = order.unsaved;
  name.title = order.unsaved ? "There are changes that are not saved" : "Saved as it is shown";
  byId("undo").disabled = !undo;
  byId("redo").disabled = !redo;
  byId("undo").title = count(undo, "step") + " back";
  byId("redo").title = count(redo, "step") + " forth";
  document.title = `${order.name || "new order"}${order.unsaved ? " •" : ""}: foil ${desk.state.at}`;
  document.body.dataset.version = version;
  warn("other", order.other);
  tellDraft(order.draft);
}

/** That changes are shown which were never saved, until that is seen or something is changed. */
function tellDraft(draft) {
  const isSeen = () => { seen = draft; warn("draft", ""); };
  warn("draft", draft && draft !== seen ? `Shown are ${draft}.` : "", [["Seen", isSeen]]);
}

/** How the library is, how many screens there are, and the figures of the foil. */
export function tellLibrary(desk) {
  const { library, screens, foil } = desk.state, place = byId("library");
  place.dataset.state = library && library.standing ? "good" : "gone";
  place.textContent = !library ? "not asked yet"
    : library.standing ? "proved library answers" : "library not to be asked";
  place.title = library ? `process ${library.pid}, started ${count(library.generation, "time")}` : "";
  byId("screens").hidden = screens < 2;
  byId("screens").textContent = screens > 1 ? `${screens} tabs, each with its own order` : "";
  if (foil) byId("figures").textContent = foil.begun ? figuresOf(foil) : "";
}

/** The figures of a foil; what is free is known of one alone whose text came to its end. */
function figuresOf(foil) {
  const pen = foil.half ? `pen ${foil.half} ${foil.gap}` : `reach ${foil.gap}`;
  return [`${foil.width} by ${foil.height} points, ${pen}`, foil.free, `${foil.entries} entries, ${foil.more} more`]
    .filter(Boolean).join("; ");
}
