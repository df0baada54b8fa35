"""The search for ways of all nets: by orders of plain lays, then by rip-up.

    orders     plain lays in the given order, then in orders in which a net that failed comes earlier
    guards     the ends of nets that are not laid yet are kept free
    rip-up     a net without a way is laid as if nets in its way were not there; the few that are, are lifted and laid
               again. A net that failed often is hard: it is put back first, and so is seldom lifted
    restarts   from orders by hardness, or from the best layout with the nets around an open one lifted

The budget is a number of calls, and chance comes from a generator of its own: the same nets on the same foil give the
same ways on every machine."""
import itertools
from typing import Callable, NamedTuple, Optional

from desk.planning import polish
from desk.planning.bench import Bench, Spent
from desk.planning.chance import Chance
from desk.planning.ends import Point, Way, box_of, cost, ink, legs, near
from desk.planning.layout import Layout, Standing

# of so few nets all orders are tried
FEW = 5
# plain orders may use so many times the calls of the first one
SHARE = 12
# of the budget, so much is left for fewer bends
POLISH = 0.05
# a descent ends after so many moves without a gain, for each net; it goes back where LOOSE nets more than at its best
# are open
STILL, LOOSE = 0.5, 2
# after PATIENT moves without a gain a net tries DETOURS other ways
PATIENT, DETOURS = 20, 4
# every so many rounds begin with the bare foil
FRESH = 4
# how often a lay takes the other way, by rounds
WILD = (0.0, 0.1, 0.3)
# how much of a net's hardness is left for the next round
COOLS = 0.5


class Score(NamedTuple):
    """By what plans are compared: nets that are open, bends in all, ink in all."""
    open: int
    bends: int
    ink: int


class Moved(NamedTuple):
    """What came of a move: the layout, and the nets that are no longer on it."""
    layout: Standing
    failed: list[int]


class Search:
    """A search on a bench, for the nets that have ends there, in the order in which they are given. `say` is told of
    each plan that is better than those before."""

    def __init__(self, bench: Bench, order: list[int], say: Callable[[Score], None]) -> None:
        self.bench, self.order, self.say = bench, order, say
        self.reach = 2 * bench.foil.board.half + bench.foil.board.gap
        self.layout = Layout(bench)
        self.chance = self.layout.chance = Chance(1)
        self.hard = dict.fromkeys(order, 0.0)
        self.best: dict[int, Way] = {}
        self.score = self.first = Score(len(order) + 1, 0, 0)
        self.alone: dict[int, Optional[Way]] = {}
        # nets that are never laid beside the others, and nets without a way beside the mere ends of the others
        self.never: list[int] = []
        self.shut: list[int] = []
        self.low: Optional[tuple[int, Standing]] = None

    def run(self, given: dict[int, Way]) -> dict[int, Way]:
        """The best ways that were met; not worse than those that are given."""
        whole = self.bench.budget
        try:
            self.bench.budget = whole - int(POLISH * whole)
            self.sift()
            self.take(given)
            self.orders()
            if self.score.open:
                self.rip_up()
        except Spent:
            pass
        try:
            self.bench.budget, self.layout.wild = whole, 0.0
            polish.polish(self)
        except Spent:
            pass
        return self.best

    # plans

    def score_of(self, ways: dict[int, Way]) -> Score:
        """How good a plan is."""
        return Score(len(self.order) - len(ways), sum(max(len(way) - 2, 0) for way in ways.values()),
                     sum(map(ink, ways.values())))

    def keep(self) -> bool:
        """Keeps the ways of the layout, where they are the best so far: whether they are."""
        score = self.score_of(self.layout.ways)
        if score >= self.score:
            return False
        self.best, self.score = dict(self.layout.ways), score
        self.say(score)
        return True

    def take(self, given: dict[int, Way]) -> None:
        """The first plan: the ways that are given, and the other nets laid in the given order."""
        self.layout.bare()
        for net, way in given.items():
            self.layout.book(net, way)
        for net in self.order:
            if net not in given:
                self.layout.lay(net)
        self.keep()
        self.first = self.score

    # orders

    def points(self, net: int, pins_only: bool) -> tuple[Point, ...]:
        """The points of a net's ends that are to be kept free."""
        return tuple(end.point for end in self.bench.ends[net] if end.point and (end.is_pin or not pins_only))

    def guard_all(self, pins_only: bool) -> None:
        """Has the ends of all nets guarded that can be laid at all, or those ends that are pins."""
        self.layout.guards = {net: self.points(net, pins_only) for net in self.order if net not in self.never}

    def sift(self) -> None:
        """Finds the nets that are never laid beside the others: they have no way alone, or ends that are too near to
        those of others."""
        for net in self.order:
            self.layout.clear()
            self.alone[net] = self.bench.find(net)
        self.never = [net for net in self.order if not self.alone[net]]
        boxes = {net: tuple(map(box_of, self.points(net, False))) for net in self.order if net not in self.never}
        clashes = {net: [other for other in boxes if other != net and near(mine, boxes[other], self.reach)]
                   for net, mine in boxes.items()}
        while any(clashes.values()):
            worst = max(clashes, key=lambda net: (len(clashes[net]), net))
            self.never.append(worst)
            for other in clashes.pop(worst):
                clashes[other].remove(worst)
        self.guard_all(pins_only=True)

    def plain(self, order: list[int]) -> list[int]:
        """Lays nets in an order: those that failed."""
        self.layout.bare()
        failed = [net for net in order if not self.layout.lay(net)]
        self.keep()
        return failed

    def orders(self) -> None:
        """Plain lays in the given order; while nets are open, in others, where nets that failed come earlier."""
        if len(self.order) <= FEW:
            for few in itertools.permutations(self.order):
                if self.score.open:
                    self.plain(list(few))
            return
        before = self.bench.calls
        order, early = list(self.order), dict.fromkeys(self.order, 0.0)
        failed = self.plain(order)
        share = self.bench.calls + SHARE * (self.bench.calls - before)
        tries = 0
        while self.score.open and self.bench.calls + len(order) < share:
            tries += 1
            for net in failed:
                early[net] += 1 + self.chance.unit() * 0.5
            order = sorted(self.order, key=lambda net: -early[net])
            if tries % 10 == 9:
                early = {net: many * 0.3 + self.chance.unit() for net, many in early.items()}
            failed = self.plain(order)

    # rip-up

    def rip_up(self) -> None:
        """Rounds of moves, until no net is open that could be laid. The budget ends it otherwise."""
        self.guard_all(pins_only=False)
        self.base = self.layout.bare()
        self.lock()
        able = [net for net in self.order if net not in self.never]
        rounds = 0
        while self.score.open > len(self.never) or not rounds:
            if not self.shaken(rounds):
                self.layout.back(self.base)
                for net in self.begun(rounds, able):
                    self.layout.lay(net)
            self.settle()
            self.descend(able)
            rounds += 1
            self.layout.wild = WILD[rounds % len(WILD)]
            self.hard = {net: hard * COOLS for net, hard in self.hard.items()}

    def lock(self) -> None:
        """Finds the nets that have no way where nothing but the ends of the others is on the foil."""
        for net in self.layout.guards:
            self.layout.back(self.base)
            self.layout.unguard(net)
            if not self.bench.find(net):
                self.shut.append(net)

    def begun(self, rounds: int, able: list[int]) -> list[int]:
        """The order in which a round from the bare foil begins: the easy ones first, then the hard ones, then by
        chance."""
        if rounds == 0:
            return sorted(able, key=lambda net: cost(self.alone[net] or ()))
        if rounds == 1:
            return sorted(able, key=lambda net: -self.hard[net])
        return sorted(able, key=lambda net: -(self.hard[net] * (0.3 + self.chance.unit()) + self.chance.unit()))

    def shaken(self, rounds: int) -> bool:
        """From the best layout: the nets around one that is open are lifted, and laid again in another order. Whether
        that was done."""
        if rounds < 2 or rounds % FRESH == 0 or not self.low:
            return False
        self.layout.back(self.low[1])
        ways = self.layout.ways
        left = [net for net in self.order if net not in self.never and net not in ways]
        if not left:
            return False
        net = left[self.chance.below(len(left))]
        about, wide = legs(self.alone[net] or ()), (2 + self.chance.below(6)) * (self.reach + 1)
        lifted = [other for other in list(ways) if near(about, legs(ways[other]), wide) and self.chance.unit() < 0.7]
        for other in lifted:
            self.layout.lift(other)
        for other in sorted([net] + lifted, key=lambda net: -(self.hard[net] * 0.3 + self.chance.unit() * 2)):
            self.layout.lay(other)
        return True

    def descend(self, able: list[int]) -> None:
        """Moves from the layout as it is, until nothing is open or nothing was gained for long."""
        fewest, still, last = len(able) - len(self.layout.ways), 0, dict.fromkeys(able, 0)
        here, moves = self.layout.now(), 0
        while True:
            left = [net for net in able if net not in self.layout.ways]
            if [net for net in left if self.layout.lay(net)]:
                self.settle()
                left = [net for net in left if net not in self.layout.ways]
            if not left:
                return
            if len(left) < fewest:
                fewest, still, here = len(left), 0, self.layout.now()
                if not self.low or fewest < self.low[0]:
                    self.low = fewest, here
            elif still > STILL * len(self.order):
                return
            elif len(left) > fewest + LOOSE:
                self.layout.back(here)
                left = [net for net in able if net not in self.layout.ways]
            net = min(left, key=lambda net: (last[net], self.chance.unit()))
            moves, still = moves + 1, still + 1
            last[net] = moves
            self.hard[net] += 1
            self.move(net, still < PATIENT)
            self.settle()

    def settle(self) -> None:
        """Looks whether this is the best plan so far, the nets tried last that are never laid beside the others."""
        if len(self.layout.ways) < len(self.order) - self.score.open:
            return
        then = self.layout.now()
        for net in self.never:
            self.layout.lay(net)
        self.keep()
        self.layout.back(then)

    def move(self, net: int, patient: bool) -> None:
        """Lays a net, and what is in its way again; where that fails and patience is at its end, by other ways."""
        then = self.layout.now()
        way, blockers = self.soft_way(net)
        if not way:
            return
        best = self.moved(net, way, blockers)
        for other in [] if patient or best and not best.failed else self.detours(then, net, way, blockers):
            self.layout.back(then)
            made = self.moved(net, other, blockers)
            if made and (not best or len(made.failed) < len(best.failed)):
                best = made
            if made and not made.failed:
                break
        self.layout.back(best.layout if best else then)
        for other in best.failed if best else ():
            self.hard[other] += 1

    def detours(self, then: Standing, net: int, way: Way, blockers: list[int]) -> list[Way]:
        """Other ways of a net, where those in its way are lifted."""
        self.layout.back(then)
        for other in blockers:
            self.layout.lift(other)
        self.layout.unguard(net)
        return self.bench.detours(net, way, self.chance, DETOURS)

    def soft_way(self, net: int) -> tuple[Optional[Way], list[int]]:
        """A way of a net as if soft nets were not there, and the nets that are in it. The layout is left as it was."""
        then = self.layout.now()
        self.layout.back(self.base)
        self.layout.unguard(net)
        way, blockers = self.bench.find(net), []
        for other in self.by_hardness(list(then.ways)) if way else ():
            if not near(legs(way), legs(then.ways[other]), self.reach):
                self.layout.book(other, then.ways[other])
                continue
            before = self.layout.now()
            found = self.bench.find(net) if self.layout.book(other, then.ways[other]) else None
            if found:
                way = found
            else:
                self.layout.back(before)
                blockers.append(other)
        self.layout.back(then)
        return way, blockers

    def moved(self, net: int, way: Way, blockers: list[int]) -> Optional[Moved]:
        """Books a way, the nets that are in it laid again after it; none where it was refused."""
        for other in blockers:
            self.layout.lift(other)
        if not self.layout.book(net, way):
            return None
        order = self.by_hardness(blockers)
        failed = [other for other in order if not self.layout.lay(other)]
        if failed and len(order) > 1 and order[0] not in failed:
            # once more, those that failed first
            for other in order:
                if other in self.layout.ways:
                    self.layout.lift(other)
            order = failed + [other for other in order if other not in failed]
            failed = [other for other in order if not self.layout.lay(other)]
        return Moved(self.layout.now(), failed)

    def by_hardness(self, nets: list[int]) -> list[int]:
        """Nets, the hard ones first."""
        return sorted(nets, key=lambda net: -(self.hard[net] + self.chance.unit()))
