/* Requests to the server, as screen/PROTOCOL.md has them.

`ask` gives back the envelope with what was answered, refused, unasked or at fault; where the server itself did not
answer, `gone` says so. Nothing is made up in its place. `Newest` is for what follows the pointer: one request at a
time, and of those that came meanwhile the newest alone. */

const JSON_KIND = { "Content-Type": "application/json" };
const PATIENCE = 1000;            // milliseconds

export class Wire {
  /** `onEnvelope` is called with every envelope, `onGone` where the server did not answer. */
  constructor(onEnvelope, onGone) {
    this.screen = "";             // the id of this tab, once it is sure that no other tab has it
    this.named = idOfTab().then(id => { this.screen = id; });
    window.addEventListener("pagehide", () => this.leave());
    this.onEnvelope = onEnvelope;
    this.onGone = onGone;
    this.flying = 0;
  }

  /** Makes a request; `quiet` ones are not counted as under way. */
  async ask(name, body = {}, { quiet = false } = {}) {
    if (!quiet) this.flying += 1;
    let envelope;
    await this.named;
    try {
      const reply = await fetch("api/" + name, {
        method: "POST",
        headers: JSON_KIND,
        body: JSON.stringify({ ...body, screen: this.screen }),
        cache: "no-store",
      });
      envelope = await reply.json();
    } catch (failure) {
      envelope = { gone: { why: "the screen's server does not answer (" + failure.message + ")" } };
    } finally {
      if (!quiet) this.flying -= 1;
    }
    if (envelope.gone) this.onGone(envelope.gone);
    else this.onEnvelope(envelope);
    return envelope;
  }

  /** The tab is closed, or loaded anew: the server is told, and nothing is waited for. */
  leave() {
    const body = JSON.stringify({ screen: this.screen });
    if (this.screen) fetch("api/leave", { method: "POST", headers: JSON_KIND, body, keepalive: true }).catch(() => {});
  }
}

/** An id that no other tab has. A tab that is loaded anew keeps its own; one that was made as a copy of another has the
other's in its storage, and takes a new one. */
async function idOfTab() {
  const made = "s" + Math.random().toString(36).slice(2, 10) + Date.now().toString(36);
  try {
    const kept = sessionStorage.getItem("screen"), id = kept && await isOurs(kept) ? kept : made;
    if (id === made) await isOurs(made);
    sessionStorage.setItem("screen", id);
    return id;
  } catch {
    return made;                  // a browser that keeps nothing
  }
}

/** Whether this tab alone has an id from now on: its lock is held as long as the page is there. That of a page that is
just being loaded anew is waited for. */
function isOurs(id) {
  return new Promise(resolve => {
    navigator.locks.request("screen " + id, { signal: AbortSignal.timeout(PATIENCE) }, () => {
      resolve(true);
      return new Promise(() => {});
    }).catch(() => resolve(false));
  });
}

/** Asks one thing at a time; of what is wanted meanwhile only the newest is asked next. */
export class Newest {
  /** `ask` makes the request of what is wanted, `show` is given that and the envelope. */
  constructor(ask, show) {
    this.ask = ask;
    this.show = show;
    this.busy = false;
    this.next = null;
    this.round = 0;
  }

  async want(what) {
    this.next = what;
    if (this.busy) return;
    this.busy = true;
    while (this.next !== null) {
      const asked = this.next, round = this.round;
      this.next = null;
      const envelope = await this.ask(asked);
      if (round === this.round) this.show(asked, envelope);
    }
    this.busy = false;
  }

  /** What is under way is not shown any more. */
  drop() {
    this.next = null;
    this.round += 1;
  }
}

/** What an envelope says where it has no answer, in words for a person. */
export function wordsOf(envelope) {
  if (envelope.refused) return refusalWords(envelope.refused);
  if (envelope.unasked) return "not asked: " + envelope.unasked.why;
  if (envelope.gone) return "not asked: " + envelope.gone.why;
  if (envelope.fault) return envelope.fault.why;
  return "";
}

/** A refusal in words: its number, what it says, and what is known of this place. */
export function refusalWords(refusal) {
  const step = refusal.step ? refusal.step + ": " : "";
  const here = refusal.here && refusal.here.length ? "\nhere: " + refusal.here.join("; ") : "";
  return step + "refused (" + refusal.number + "): " + refusal.says + here;
}
