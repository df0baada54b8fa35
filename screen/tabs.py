"""The tabs of the browser. Each has a session of its own: its order, its steps back and forth, its lock and its draft.
So nothing that is done in one tab is seen in another, but by way of the orders' folder. A second tab on the same order
is a second screen on it: it is told, and saves only when the person says so (screen/shelf.py).

The session of a tab that was closed stays: the tab that comes next takes it over, with what was not saved."""
import threading
import time
from typing import Callable, Dict, List, Optional

from screen.session import Fault, Session

# how long a tab counts that says nothing, in seconds: a browser lets one that is not seen ask once a minute
SILENT = 150
# how many sessions there are at most
MOST = 64
# versions of two sessions are never the same: how far they are apart
APART = 1_000_000


class Tabs:
    """The sessions, by the ids that their tabs made up."""

    def __init__(self, first: Session, another: Callable[[], Session]) -> None:
        self.another, self.begun = another, 0
        self.lock = threading.RLock()
        self.here: Dict[str, Session] = {}         # those that have a tab, the one that asked last at the end
        self.seen: Dict[str, float] = {}
        self.left: Dict[str, Session] = {"": self.taken_in(first)}

    def taken_in(self, session: Session) -> Session:
        """A session, made known here."""
        session.order.version += APART * self.begun
        session.tabs = self
        self.begun += 1
        return session

    @property
    def count(self) -> int:
        """How many tabs are open."""
        with self.lock:
            self.leave_silent()
            return len(self.here)

    @property
    def every(self) -> List[Session]:
        """All sessions, with a tab or without."""
        with self.lock:
            return [*self.left.values(), *self.here.values()]

    def of(self, tab: str) -> Session:
        """The session of a tab that asks. A tab that is not known takes the session over that was left last, or begins
        as the first one did."""
        with self.lock:
            self.leave_silent()
            session = self.here.pop(tab, None) or self.left.pop(tab, None)
            if session is None and self.left:
                _, session = self.left.popitem()
            if session is None:
                if len(self.here) >= MOST:
                    raise Fault("asked", f"{MOST} tabs are open already: close one")
                session = self.taken_in(self.another())
            self.here[tab], self.seen[tab] = session, time.monotonic()
            return session

    def shown(self, tab: Optional[str]) -> Session:
        """The session that a page for print is of: that of a tab, or of the one that asked last."""
        with self.lock:
            if tab:
                session = self.here.get(tab) or self.left.get(tab)
                if session is None:
                    raise Fault("absent", "the tab that this page is of has been closed")
                return session
            return self.every[-1]

    def leave(self, tab: str) -> None:
        """A tab was closed, or is loaded anew."""
        with self.lock:
            if tab in self.here:
                self.left[tab] = self.here.pop(tab)
                self.seen.pop(tab)

    def leave_silent(self) -> None:
        """Tabs that have said nothing for long are closed."""
        since = time.monotonic() - SILENT
        for tab in [tab for tab, seen in self.seen.items() if seen < since]:
            self.leave(tab)

    def is_left(self, name: str) -> bool:
        """Whether an order is open in a session alone that has no tab."""
        with self.lock:
            return any(session.shelf.slot == name for session in self.left.values())

    def give_up(self, name: str) -> None:
        """Gives an order up that only a session without a tab has open; a draft of it stays."""
        with self.lock:
            for tab, session in list(self.left.items()):
                if session.shelf.slot == name:
                    session.shelf.release()
                    del self.left[tab]
