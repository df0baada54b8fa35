"""How far proving is, on standard error: what is being proved, how many crates are left, how long it has taken so far and
about how long it will still take. On a terminal that is one line, which moves every second; elsewhere a line for each
crate that is done."""
from __future__ import annotations

import pathlib
import sys
import threading
import time

from desk import console
from desk.forecast import Forecast, Needs

# the seconds between two looks
PACE = 1


class Progress:
    """The crates that are to be proved, what each stands on, and the folder in which `rt` keeps its log of each."""

    def __init__(self, crates: list[str], needs: Needs, logs: pathlib.Path) -> None:
        self.left, self.all, self.logs = list(crates), len(crates), logs
        self.forecast = Forecast(self.left, needs)
        self.began, self.clock = time.time(), time.monotonic()
        self.moves = sys.stderr.isatty()
        self.over = threading.Event()
        self.ticks = threading.Thread(target=self.tick, daemon=True)

    def __enter__(self) -> Progress:
        self.show("")
        if self.moves:
            self.ticks.start()
        return self

    def tick(self) -> None:
        """Moves the line until it is over."""
        while not self.over.wait(PACE):
            self.show("")

    def show(self, done: str) -> None:
        """Shows how far it is."""
        if not self.moves:
            console.complain(f"proving and building: {done and done + ' is proved, '}{self.counts()}")
            return
        now = "".join(" " + crate for crate in self.under_way())
        line = f"proving{now}: {self.counts()}"
        print("\r\033[K" + line[:console.width() - 1], end="", file=sys.stderr, flush=True)

    def counts(self) -> str:
        """How many crates are left, how long it has taken, and about how long it will still take."""
        now = time.time()
        begun = {crate: now - self.changed(crate + ".say") for crate in self.under_way()}
        still = self.forecast.left(list(self.left), begun, self.so_far())
        return f"{len(self.left)} of {self.all} crates left, {clock(self.so_far())} so far, about {clock(still)} to go"

    def so_far(self) -> float:
        """The seconds that it has taken so far."""
        return time.monotonic() - self.clock

    def under_way(self) -> list[str]:
        """The crates that are being proved now, by the logs of `rt`."""
        return [crate for crate in list(self.left) if self.is_begun(crate) and not self.is_done(crate)]

    def is_begun(self, crate: str) -> bool:
        """Whether the log of a crate was begun in this run."""
        return self.changed(crate + ".say") >= self.began - 1

    def is_done(self, crate: str) -> bool:
        """Whether a crate's good result was written after its log."""
        result = self.logs / (crate + ".res")
        return self.changed(result.name) >= self.changed(crate + ".say") and \
            result.read_text(encoding="utf-8").strip() in ("proved", "built")

    def changed(self, name: str) -> float:
        """When a log was last written; 0 where it is not there."""
        try:
            return self.logs.joinpath(name).stat().st_mtime
        except OSError:
            return 0

    def follow(self, line: str) -> None:
        """Takes a line of the check."""
        words = line.split()
        if words[:1] == ["rt:"] and words[2:3] == ["proved"] and words[1] in self.left:
            self.left.remove(words[1])
            self.show(words[1])

    def __exit__(self, *_: object) -> None:
        self.over.set()
        if self.moves:
            self.ticks.join()
            print("\r\033[K", end="", file=sys.stderr, flush=True)


def clock(seconds: float) -> str:
    """Seconds as minutes and seconds."""
    return "%d:%02d" % divmod(int(seconds), 60)
