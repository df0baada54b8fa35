"""What lies on the bench now: the ways of nets, and guards. A guard keeps the points of a net free that is not laid
yet, by legs of one point: no track of another net comes too near."""
from typing import NamedTuple, Optional

from desk.planning.bench import Bench, State
from desk.planning.chance import Chance
from desk.planning.ends import Point, Way


class Standing(NamedTuple):
    """A layout as it was: the bench, the ways on it, and the nets that have guards on it."""
    bench: State
    ways: dict[int, Way]
    guarded: list[int]


class Layout:
    """The ways on a bench, by net. `guards` are the points that are kept free for each net while it is not laid."""

    def __init__(self, bench: Bench) -> None:
        self.bench, self.empty = bench, bench.copy()
        self.guards: dict[int, tuple[Point, ...]] = {}
        self.ways: dict[int, Way] = {}
        self.guarded: list[int] = []
        self.chance, self.wild = Chance(1), 0.0

    def now(self) -> Standing:
        """The layout as it is."""
        return Standing(self.bench.copy(), dict(self.ways), list(self.guarded))

    def back(self, then: Standing) -> None:
        """The layout as it was."""
        self.bench.back(then.bench)
        self.ways, self.guarded = dict(then.ways), list(then.guarded)

    def clear(self) -> None:
        """Takes all ways and guards away."""
        self.bench.back(self.empty)
        self.ways, self.guarded = {}, []

    def bare(self) -> Standing:
        """The layout with the guards of all nets and no way."""
        self.clear()
        for net in self.guards:
            self.guard(net)
        return self.now()

    def guard(self, net: int) -> None:
        """Keeps the points of a net free."""
        if self.guards.get(net):
            for point in self.guards[net]:
                self.bench.guard(net, point)
            self.guarded.append(net)

    def unguard(self, net: int) -> None:
        """Takes the guards of a net away, where it has some."""
        if net in self.guarded:
            self.bench.lift(net)
            self.guarded.remove(net)

    def lay(self, net: int) -> bool:
        """Lays a net, now and then by its other way, where that is asked for: whether it has a way."""
        self.unguard(net)
        if self.wild and self.chance.unit() < self.wild:
            way = self.other_way(net)
            way = way if way and self.bench.book(net, way) else None
        else:
            way = self.bench.lay(net)
        if way:
            self.ways[net] = way
        else:
            self.guard(net)
        return bool(way)

    def other_way(self, net: int) -> Optional[Way]:
        """A way of a net that a plain lay would not take, by chance, where there is one."""
        way = self.bench.find(net)
        others = self.bench.detours(net, way, self.chance, 2) if way else []
        return others[self.chance.below(len(others))] if others else way

    def book(self, net: int, way: Way) -> bool:
        """Books a way: whether it was accepted."""
        self.unguard(net)
        if self.bench.book(net, way):
            self.ways[net] = way
            return True
        self.guard(net)
        return False

    def lift(self, net: int) -> None:
        """Lifts a net, and keeps its points free."""
        self.bench.lift(net)
        del self.ways[net]
        self.guard(net)
