"""The order that a tab has open and the library that is asked about it, held together by one lock: what requests work
on."""
from __future__ import annotations

import threading
import time
from typing import TYPE_CHECKING, Any, Dict, Optional

from desk import refusals
from screen import shown
from screen.advising import Adviser
from screen.order import FOILS, Order

if TYPE_CHECKING:
    from screen.library import Library
    from screen.shelf import Shelf
    from screen.tabs import Tabs

# how long a watch waits, in seconds
WATCH = 20


class Fault(Exception):
    """A request that is not done: its kind by PROTOCOL.md, why, and what the page is told besides."""

    def __init__(self, kind: str, why: str, **told: str) -> None:
        super().__init__(why)
        self.kind, self.why, self.told = kind, why, told


class Refused(Exception):
    """A proved call refused: what the page is told."""

    def __init__(self, told):
        super().__init__(told["says"])
        self.told = told


class Session:
    """The order of a tab, the library and the shelf of orders."""
    tabs: Tabs                    # those that it is made known to

    def __init__(self, library: Library, shelf: Shelf, order: Optional[Order] = None) -> None:
        self.library, self.shelf = library, shelf
        self.order, self.table = order or Order(), refusals.readme_table()
        self.adviser = Adviser(library)
        self.lock = threading.RLock()
        self.told = threading.Condition(self.lock)
        self.pictures: Dict[Any, Any] = {}
        self.accounts: Dict[int, shown.Account] = {}

    # the tab

    @property
    def screens(self) -> int:
        """How many tabs are open, each with a session of its own."""
        return self.tabs.count

    def envelope(self):
        """What every answer has."""
        return {"version": self.order.version, "library": self.library.seen(), "screens": self.screens}

    def watch(self, version, generation, screens):
        """Waits until one of these is not what it was, or for a while; a second where the library is gone."""
        until = time.monotonic() + WATCH
        while time.monotonic() < until:
            seen = self.library.seen()
            if (version, generation, screens) != (self.order.version, seen["generation"], self.screens):
                return
            if not seen["standing"]:
                until = min(until, time.monotonic() + 1)
            self.told.wait(0.5)

    # the foils

    def held(self):
        """What the foils hold, by foil."""
        return self.library.set_jobs(self.order.jobs())

    def account(self, k: int) -> shown.Account:
        """The account of a foil that can be worked on."""
        text = self.order.reads[k].text
        if not text:
            raise Fault("unread", "the text of foil %d cannot be read, or is empty" % k)
        account = self.account_of(k, text, self.held()[k])
        if not account.is_done:
            raise Fault("unread", self.unfinished(k, account))
        return account

    def unfinished(self, k: int, account: shown.Account) -> str:
        """Why there is no foil to work on, and what to do."""
        fault = shown.fault_of(account, self.table)
        where = f"line {fault['line']} is at fault" if fault["line"] else "it is at fault as a whole"
        says = "; ".join([fault["says"], *fault["here"]])
        return (f"the text of foil {k} does not come to its end: {where} ({fault['number']}): {says}. "
                f"What to do: {fault['to_do']}")

    def account_of(self, k, text, held):
        """The account of a text by what the library holds of it; made once."""
        kept = self.accounts.get(k)
        if kept is None or kept.text is not text or kept.held is not held:
            kept = self.accounts[k] = shown.Account(text, held)
        return kept

    def ask(self, question):
        """Asks the library about the sheet as it stands."""
        return self.library.ask(self.order.jobs(), question)

    def ink(self, k):
        """The ink of a foil as the library takes it, or none."""
        held = self.held().get(k)
        ink = held and held["board"] and shown.ink_figures(self.order.texts[k], held["board"][2])
        return ink and list(ink[:3])

    def foil(self, k):
        """A foil as the page gets it."""
        source, read, held = self.order.texts[k], self.order.reads[k], self.held()
        counts = shown.counts_of(held)
        if not read.text:
            return shown.empty(k, source, read.faults, counts)
        key = (k, source, tuple(counts), id(held[k]))
        if key not in self.pictures:
            account = self.account_of(k, read.text, held[k])
            notes = self.adviser.notes(account)
            made = shown.foil(k, source, account, counts, self.table, notes, self.measured(k))
            self.pictures = {**dict(list(self.pictures.items())[-7:]), key: (held[k], made)}
        return self.pictures[key][1]

    def measured(self, k):
        """What the library says of the ohms of a foil: the number of a refusal, and pairs of net and ohms."""
        ink = self.ink(k)
        if not ink:
            return 0, []
        said = self.ask({"ask": "ohms", "foil": k, "ink": ink})
        return next((number for _, number, _ in said if number), 0), [(net, value) for net, _, value in said]

    def texts(self):
        """The order without anything that the library is asked for: what the page gets where that cannot be asked."""
        order = self.order
        other = "; ".join(words for words in (order.other, order.amiss, order.unkept) if words)
        return {"order": {"name": order.name, "unsaved": order.unsaved, "other": other, "draft": order.draft},
                "texts": order.texts}

    def state(self, k=0):
        """The order as the page gets it, with one foil whole."""
        order, held = self.order, self.held()
        counts = shown.counts_of(held)
        return {
            "version": order.version, "order": self.texts()["order"], "undo": len(order.done),
            "redo": len(order.undone),
            "foils": [self.tab(at, held.get(at), counts) for at in range(FOILS)],
            "sheet": {"entries": sum(counts), "most": shown.PLACES, "sure": shown.SURE, "each": shown.ENTRIES},
            "foil": self.foil(k)}

    def tab(self, k, held, counts):
        """A foil in a few words, for its tab."""
        read = self.order.reads[k]
        refused = sum(said.split()[-1] != "0" for said in held["lines"]
                      if not said.startswith("track") or len(said.split()) == 3) if held else 0
        return {"foil": k, "begun": bool(held and held["board"]), "empty": not self.order.texts[k].strip(),
                "read": not read.faults, "entries": counts[k], "more": shown.limit(counts, k) - counts[k],
                "refused": refused}

    # changes

    def changed(self) -> None:
        """The order has changed: a tab that watches is told, and a draft is kept while there is something to save. That
        what is shown was never saved is then known."""
        self.order.draft = ""
        if self.order.unsaved:
            self.shelf.keep_draft(self.order)
        else:
            self.shelf.drop_draft()
        self.told.notify_all()
