"""The bench: a foil on a sheet of its own, whose calls of the library are counted. Copies of it are cheap.

A way to a key is asked by a join: the points beside the key stand on the bench as legs of the net while the library
looks for a way to any of them, the one with the fewest bends and then the least ink."""
import ctypes
from typing import Any, Callable, NamedTuple, Optional

import keyfoil
from keyfoil.library import EntryStruct

from desk.planning.chance import Chance
from desk.planning.ends import Box, Ends, Point, Way, box_of, cost, legs

# after so many calls it is told how far the search is
PACE = 500


class Spent(Exception):
    """The budget of calls is spent, or the search is stopped."""


class State(NamedTuple):
    """The bench as it was: the bytes of its records, of its table, and of its strips."""
    records: bytes
    table: bytes
    strips: bytes


def never() -> bool:
    """For a search that is not stopped."""
    return False


def silent() -> None:
    """For a search that says nothing."""


class Bench:
    """A foil, the ends of the nets that are to be laid on it, and the calls that were made."""

    def __init__(self, budget: int, stop: Callable[[], bool] = never, library: Any = None) -> None:
        self.budget, self.stop, self.calls = budget, stop, 0
        self.tell: Callable[[], None] = silent
        self.sheet = keyfoil.Sheet(library)
        self.foil = self.sheet.foil(0)
        self.ends: dict[int, Ends] = {}
        self.wall = 999
        lists = self.sheet.lists
        self.library = self.sheet.library
        self.corners = lists.corners
        self.lent = (lists.records, lists.table, len(lists.table), lists.strips[0], len(lists.strips[0]))
        self.room = (self.corners, len(self.corners))

    def spend(self) -> None:
        """Counts a call that is about to be made."""
        if self.calls >= self.budget or self.stop():
            raise Spent
        self.calls += 1
        if self.calls % PACE == 0:
            self.tell()

    # copies

    def copy(self) -> State:
        """The bench as it is."""
        records, table, _, strips, _ = self.lent
        count = records.boards[0].strips
        entries = keyfoil.ENTRIES * ctypes.sizeof(EntryStruct)
        return State(ctypes.string_at(ctypes.addressof(records), ctypes.sizeof(records)),
                     ctypes.string_at(ctypes.addressof(table), entries),
                     ctypes.string_at(ctypes.addressof(strips), 8 * count))

    def back(self, state: State) -> None:
        """The bench as it was. Places of strips past the last one are zero on a foil."""
        records, table, _, strips, _ = self.lent
        now, then = 8 * records.boards[0].strips, len(state.strips)
        if now > then:
            ctypes.memset(ctypes.addressof(strips) + then, 0, now - then)
        for mine, kept in zip((records, table, strips), state):
            ctypes.memmove(ctypes.addressof(mine), kept, len(kept))

    # calls that change the foil

    def lay(self, net: int) -> Optional[Way]:
        """Lays a net: its way, or none."""
        start, end = (end.point for end in self.ends[net])
        if start and end:
            self.spend()
            return self.way(self.library.foil_lay(*self.lent, *self.room, 0, net, *start, *end))
        way = self.find(net)
        return way if way and self.book(net, way) else None

    def book(self, net: int, way: Way) -> bool:
        """Books a way as a track of a net: whether it was accepted."""
        self.spend()
        flat = [number for corner in way for number in corner]
        lent = (ctypes.c_uint16 * len(flat))(*flat)
        return bool(self.library.foil_book(*self.lent, lent, len(flat), 0, net).number == 0)

    def lift(self, net: int) -> None:
        """Lifts a net."""
        self.spend()
        self.library.foil_lift(*self.lent, 0, net)

    def leg(self, net: int, box: Box) -> bool:
        """Puts a leg: whether it was accepted."""
        self.spend()
        return bool(self.library.foil_put_leg(*self.lent, 0, EntryStruct(net, *box)).number == 0)

    def guard(self, net: int, point: Point) -> bool:
        """Keeps a point free for a net, by a leg of that one point: no track of another comes too near."""
        return self.leg(net, box_of(point))

    # calls that leave it as it was

    def detours(self, net: int, way: Way, chance: Chance, most: int) -> list[Way]:
        """Other ways of a net than this one: the gaps that its longest legs go through are closed by a wall, one at a
        time, while a way is looked for."""
        found, before = [way], self.copy()
        for x0, y0, x1, y1 in sorted(legs(way), key=lambda leg: (leg[0] - leg[2]) + (leg[1] - leg[3]))[:most]:
            share = 0.25 + 0.5 * chance.unit()
            point = (x0 + int(share * (x1 - 1 - x0)), y0 + int(share * (y1 - 1 - y0)))
            if self.leg(self.wall, self.gap_at(point, x1 - x0 > 1)):
                other = self.find(net)
                found += [other] if other and other not in found else []
                self.back(before)
        return found[1:]

    def gap_at(self, point: Point, upright: bool) -> Box:
        """The free points in a row with a point, or one above the other, as a box."""
        x, y = point
        flat = self.lent[3][:4 * self.lent[0].boards[0].strips]
        rows = [(b, d, a, c) for a, b, c, d in zip(flat[::4], flat[1::4], flat[2::4], flat[3::4]) if a <= x < c]
        if not upright:
            return next(((a, y, c, y + 1) for b, d, a, c in rows if b <= y < d), box_of(point))
        low, high = y, y + 1
        for top, bottom, _, _ in rows:
            high = bottom if top <= high < bottom else high
        for top, bottom, _, _ in reversed(rows):
            low = top if top < low <= bottom else low
        return (x, low, x + 1, high)

    def find(self, net: int) -> Optional[Way]:
        """The way that a net has, or none; the net is not on the bench."""
        (start, end), turned = self.ends[net], False
        if start.point is None:
            start, end, turned = end, start, True
        if start.point is None:
            way = self.between(net, start.contacts, end.contacts)
        elif end.point is None:
            way = self.joined(net, [start.point], end.contacts)
        else:
            self.spend()
            return self.way(self.library.foil_find(*self.lent, *self.room, 0, *start.point, *end.point))
        return way[::-1] if way and turned else way

    def joined(self, net: int, points: list[Point], contacts: tuple[Box, ...]) -> Optional[Way]:
        """The best way from one of these points to the points beside a key."""
        before, found = self.copy(), []
        for box in contacts:
            self.leg(net, box)
        ringed = self.copy()
        for point in points:
            self.spend()
            way = self.way(self.library.foil_join(*self.lent, *self.room, 0, net, *point))
            found += [way] if way else []
            self.back(ringed)
        self.back(before)
        return min(found, key=cost, default=None)

    def between(self, net: int, some: tuple[Box, ...], others: tuple[Box, ...]) -> Optional[Way]:
        """A way between two keys: from the middle of each side of the first to any point beside the other, and from
        there back to any point beside the first."""
        middles = [((x0 + x1 - 1) // 2, (y0 + y1 - 1) // 2) for x0, y0, x1, y1 in some]
        there = self.joined(net, middles, others)
        back = self.joined(net, [there[-1]], some) if there else None
        return back[::-1] if back else there

    def way(self, said: Any) -> Optional[Way]:
        """The way that a call has answered, or none."""
        if said.number:
            return None
        flat = self.corners[:2 * said.corners]
        return tuple(zip(flat[::2], flat[1::2]))
