"""How long proving will still take, by the seconds that each crate took in the gate (tools/crate-seconds.txt)."""
from __future__ import annotations

import os
import pathlib

from desk.program import ROOT

SECONDS = ROOT / "tools" / "crate-seconds.txt"
# what a crate takes that was never timed, and how long it takes until the machine's own pace is known
UNKNOWN, SETTLED = 20.0, 30.0

Needs = dict[str, list[str]]


def seconds_of(path: pathlib.Path = SECONDS) -> dict[str, float]:
    """The seconds of each crate, a line each; none where there is no such file."""
    try:
        rows = [line.split() for line in path.read_text(encoding="utf-8").splitlines() if not line.startswith("#")]
        return {name: float(taken) for name, taken in rows}
    except (OSError, ValueError):
        return {}


def workers() -> int:
    """How many crates `rt` proves at a time."""
    try:
        return max(1, int(os.environ["RT_JOBS"]))
    except (KeyError, ValueError):
        return min(os.cpu_count() or 1, 4)


def time_for(left: dict[str, float], needs: Needs, at_a_time: int) -> float:
    """How long the crates take that are left, so many at a time: each is begun when what it stands on is proved."""
    waiting, running, now = dict(left), dict[str, float](), 0.0
    while waiting or running:
        for crate in list(waiting):
            if len(running) == at_a_time:
                break
            if not any(need in waiting or need in running for need in needs.get(crate, [])):
                running[crate] = now + waiting.pop(crate)
        if not running:
            break
        done = min(running, key=running.__getitem__)
        now = running.pop(done)
    return now


class Forecast:
    """The time that is left of a run which proves these crates."""

    def __init__(self, crates: list[str], needs: Needs) -> None:
        taken = seconds_of()
        self.needs, self.at_a_time = needs, workers()
        self.seconds = {crate: taken.get(crate, UNKNOWN) for crate in crates}
        self.whole = time_for(self.seconds, needs, self.at_a_time)

    def left(self, crates: list[str], under_way: dict[str, float], so_far: float) -> float:
        """The seconds that are left, with those that the crates under way have taken, at the pace of what is done."""
        rest = {crate: self.seconds[crate] for crate in crates}
        for crate, taken in under_way.items():
            rest[crate] = max(rest[crate] - taken, 1.0)
        still = time_for(rest, self.needs, self.at_a_time)
        done = self.whole - still
        pace = so_far / done if so_far > SETTLED and done > SETTLED else 1.0
        return still * pace
