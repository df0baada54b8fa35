"""A plan for a text: `plan` is what the command, the screen and orders call."""
import pathlib
from typing import Any, Callable, NamedTuple, Optional, Union

import keyfoil

from desk import checks, foils, lines, names
from desk.planning import reading as readings, reasons, trial, writing
from desk.planning.bench import Bench, never
from desk.planning.ends import Box, ink, near
from desk.planning.given import Given, Wish, given
from desk.planning.reading import Reading
from desk.planning.search import Score, Search

# the calls of the library that a plan may take, where no other number is given
CALLS = 20_000
# calls that are not of the search
AMPLE = 1_000_000
FULL = "nearly full"


class Progress(NamedTuple):
    """How far a search is: its calls, the tracks of the best plan so far, those that are wanted, and its bends."""
    calls: int
    tracks: int
    wanted: int
    bends: int

    def __str__(self) -> str:
        return f"{self.calls:,} calls: {self.tracks} of {self.wanted} tracks, {self.bends} bends"


class Count(NamedTuple):
    """Tracks that are laid, of those that are wanted; their bends and their length in all."""
    tracks: int
    bends: int
    length: int


class Open(NamedTuple):
    """A wish that is open: its net, its line `connect`, what blocks it, and whether it cannot be."""
    net: int
    said: str
    why: str
    impossible: bool


class Planned(NamedTuple):
    """A planned text, and what is said of it: how many tracks are wanted, what the text as given lays and what the plan
    lays, what is open, how many tracks are legs, the calls that were used, whether it was stopped, and the check list:
    that of what was not touched, with "nearly full" besides."""
    text: str
    wanted: int
    before: Count
    after: Count
    open: list[Open]
    by_legs: int
    calls: int
    stopped: bool
    findings: list[checks.Finding]

    @property
    def is_whole(self) -> bool:
        """Whether nothing is open, and nothing is to be checked but that few entries are left."""
        return not self.open and all(finding.matter == FULL for finding in self.findings)

    @property
    def said(self) -> str:
        """What came of it, in a line."""
        return (f"{self.after.tracks} of {self.wanted} tracks, {self.after.bends} bends, length {self.after.length}; "
                f"as given {self.before.tracks}")


def unheard(progress: Progress) -> None:
    """For a plan whose progress nobody follows."""


def plan(source: Union[str, bytes], folder: Optional[pathlib.Path] = None, calls: int = CALLS,
         progress: Callable[[Progress], None] = unheard, stop: Callable[[], bool] = never,
         library: Any = None) -> Planned:
    """Plans a text. Files that it names stand in `folder`. The search takes at most so many calls, tells its progress,
    and ends early where `stop` says so. Raises Unreadable for a text that cannot be read, and NoFoil for one that
    leaves no foil. `library` is as for keyfoil.Sheet."""
    reading = readings.read(source, folder)
    return Planner(reading, library if library is not None else keyfoil.load()).plan(calls, progress, stop)


class Planner:
    """A text that was read, and what it gives."""

    def __init__(self, reading: Reading, library: Any) -> None:
        self.reading, self.library = reading, library
        self.given: Given = given(reading, library)
        self.nets = [wish.net for wish in self.given.wishes]
        self.wanted = len(self.nets) + len(self.given.taken)

    def plan(self, calls: int, progress: Callable[[Progress], None], stop: Callable[[], bool]) -> Planned:
        """The plan, by so many calls."""
        search = self.searched(calls, progress, stop)
        stopped = stop()
        before = self.count(search.first)
        if not self.reading.wanted and not search.score.open and search.score == search.first and \
                len(self.given.ways) == len(self.nets) and not self.given.taken:
            return Planned(self.as_it_stands(), self.wanted, before, before, [], 0, search.bench.calls, stopped,
                           self.findings_of(self.reading))
        made = writing.ordered(self.bench(AMPLE, never, False), self.given.wishes, search.best,
                               self.kept_free(set(search.best), search.reach))
        if not self.given.steady or len(made) < len(self.given.ways):
            return self.left(search, stopped)
        found = self.open(search)
        text = self.text_of(made, found)
        return self.checked(Planned(text, self.wanted, before, before, found, sum(line.by_legs for line in made),
                                    search.bench.calls, stopped, []))

    def searched(self, calls: int, progress: Callable[[Progress], None], stop: Callable[[], bool]) -> Search:
        """The search, done."""
        bench = self.bench(calls, stop)

        def tell(score: Score) -> None:
            progress(Progress(bench.calls, len(self.nets) - min(score.open, len(self.nets)), self.wanted, score.bends))

        search = Search(bench, self.nets, tell)
        bench.tell = lambda: tell(search.score)
        search.run(self.given.ways)
        return search

    def bench(self, calls: int, stop: Callable[[], bool], guarded: bool = True) -> Bench:
        """A bench with what is never touched; guarded, with pins kept free that no wish ends at."""
        bench = Bench(calls, stop, self.library)
        for step in self.given.base:
            trial.do(bench.foil, step)
        bench.ends = {wish.net: wish.ends for wish in self.given.wishes}
        used = {*self.nets, *bench.foil.nets}
        # where no number is left these are 0, and their legs are refused
        bench.wall, spare = ([net for net in range(999, 0, -1) if net not in used] + [0, 0])[:2]
        reach = 2 * bench.foil.board.half + bench.foil.board.gap
        for box in self.kept_free(set(self.nets), reach) if guarded else ():
            bench.foil.put_leg(spare, *box)
        return bench

    def kept_free(self, laid: set[int], reach: int) -> tuple[Box, ...]:
        """The pins that are kept free where these nets are laid."""
        return writing.kept_free(self.reading, self.given.wishes, laid, reach)

    def count(self, score: Score) -> Count:
        """A search's score as a count."""
        return Count(max(len(self.nets) - score.open, 0), score.bends, score.ink)

    # what is open

    def open(self, search: Search) -> list[Open]:
        """The wishes that are open, and why."""
        board = search.bench.foil.board
        foil = reasons.Foil((board.width, board.height), (board.half, board.gap),
                            [tuple(entry[1:]) for entry in self.bench(AMPLE, never).foil.entries if entry.net == 0],
                            self.reading, self.given.wishes, search.best, search.alone, search.shut)
        found = []
        for wish in self.given.wishes:
            if wish.net not in search.best:
                found.append(Open(wish.net, wish.said, *reasons.reason(foil, wish)))
        return found + [self.taken(wish) for wish in self.given.taken]

    def taken(self, wish: Wish) -> Open:
        """A wish whose net is another's."""
        why = f"net {wish.net} has another track" if 1 <= wish.net <= 999 else "a net is a number from 1 to 999"
        return Open(wish.net, wish.said, why, True)

    # the text

    def as_it_stands(self) -> str:
        """The text as it was given, with what files have put in."""
        shown = "\n".join(self.reading.lines)
        return shown if shown.endswith("\n") else shown + "\n"

    def text_of(self, made: list[writing.Line], found: list[Open]) -> str:
        """The planned text."""
        by_line = {wish.said: wish.remark for wish in [*self.given.wishes, *self.given.taken]}
        shown = [line for part in made for line in part.lines]
        shown += [writing.with_remark(one.said, "; ".join([by_line[one.said]] * bool(by_line[one.said]) + [
            f"open{', and cannot be' if one.impossible else ''}: {one.why}"])) for one in found]
        return writing.text_of(self.reading, self.given, shown)

    def left(self, search: Search, stopped: bool) -> Planned:
        """The text as it was given: it lays more tracks than the plan, or no plan keeps what is never to be touched."""
        ways = self.given.ways
        laid = Count(len(ways), sum(max(len(way) - 2, 0) for way in ways.values()), sum(map(ink, ways.values())))
        why = "a patch or leg was refused for a track: mend that first" if not self.given.steady else (
            "the text as given lays more tracks than a plan that was found")
        found = [Open(wish.net, wish.said, why, False)
                 for wish in self.given.wishes if wish.net not in ways] + [self.taken(w) for w in self.given.taken]
        return Planned(self.as_it_stands(), self.wanted, laid, laid, found, 0, search.bench.calls, stopped,
                       [one for one in self.findings_of(self.reading) if one.matter != "open"])

    # the check

    def checked(self, planned: Planned) -> Planned:
        """A plan that was run whole on a new sheet, with what that has laid. It is none where a step of it was refused,
        or where its check list has a line that what is never touched does not have by itself."""
        under = self.base_reading()
        base = self.findings_of(under)
        before = [outcome.step for outcome in trial.run_of(under.text.job, self.library).refused]
        again = readings.read(planned.text)
        run = trial.run_of(again.text.job, self.library)
        foil = foils.foil_of(run, names.names_of(again.text))
        if run.strips is None or foil is None:
            raise lines.Strange("the plan was not confirmed: its text leaves no foil")
        refused = [outcome.step for outcome in run.refused if outcome.step not in before]
        new = [one for one in checks.findings(foil) if one not in base and one.matter != FULL]
        if refused or new:
            raise lines.Strange(f"the plan was not confirmed: {refused or new}")
        nets = [net for net in foil.nets if net.net in self.nets]
        reach = 2 * foil.half + foil.gap
        free = self.kept_free({net.net for net in nets}, reach)
        for net in nets:
            if near(tuple(net.legs), free, reach):
                raise lines.Strange(f"the plan was not confirmed: net {net.net} is too near a pin of another")
        after = Count(len(nets), sum(net.bends for net in nets), sum(net.length for net in nets))
        if after.tracks < planned.before.tracks or after.tracks + len(planned.open) != self.wanted:
            raise lines.Strange(f"the plan was not confirmed: {after.tracks} tracks")
        return planned._replace(after=after, findings=list(checks.findings(foil)))

    def base_reading(self) -> Reading:
        """The text without its tracks and wishes."""
        return readings.read(writing.text_of(self.reading, self.given, []))

    def findings_of(self, reading: Reading) -> list[checks.Finding]:
        """The check list of a text."""
        foil = foils.foil_of(trial.run_of(reading.text.job, self.library), names.names_of(reading.text))
        return [] if foil is None else list(checks.findings(foil))
