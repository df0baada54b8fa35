/* The watch: a request that is answered when the order, the library or the number of tabs is another one. So this tab
sees a library that has gone. A tab that is not seen asks now and then instead, since a browser has few connections to
a server. */

const PAUSE = 3000;               // milliseconds after which a server that is gone is asked again
const SELDOM = 5000;              // for a tab that is not seen

/** Watches for ever. */
export async function watch(desk) {
  const { state } = desk;
  for (;;) {
    const hidden = document.hidden, { library } = state;
    const envelope = await state.wire.ask("watch", {
      version: hidden ? -1 : state.version,
      generation: library ? library.generation : 0,
      screens: state.screens,
    }, { quiet: true });
    if (envelope.gone || envelope.fault) await pause(PAUSE);
    else if (envelope.version !== state.version && !state.waiting) await seen(desk);
    if (hidden) await pause(SELDOM);
  }
}

/** The order was changed elsewhere: it is shown, unless something is typed here that would be lost. */
async function seen(desk) {
  if (desk.text.unsent) return desk.text.send();
  await desk.state.load();
}

function pause(milliseconds) {
  return new Promise(resolve => setTimeout(resolve, milliseconds));
}
