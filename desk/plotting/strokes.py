"""The legs of a table as strokes: what the pen draws without being lifted.

Legs of a net that have an end in common make one polyline, the first in the table's order first. A leg that would go
back over the one before it, and one of a single point, begin a stroke of their own: every corner of a stroke is then
the end of two legs that make a bend or go straight on, and each leg is in one stroke, once."""
from typing import Dict, List, NamedTuple, Optional, Sequence, Tuple

from desk.plotting.tables import Box, Point, Table


class Stroke(NamedTuple):
    """A polyline through the middles of points: its net, 0 for a patch, and its corners, or the one point that it is.
    Between two corners lies a leg."""
    net: int
    corners: Tuple[Point, ...]


def strokes_of(table: Table) -> List[Stroke]:
    """The strokes of a table, nets rising."""
    legs: Dict[int, List[Box]] = {}
    for leg in table.legs:
        legs.setdefault(leg.net, []).append(leg.box)
    return [Stroke(net, corners) for net in sorted(legs) for corners in chained(legs[net])]


def chained(legs: Sequence[Box]) -> List[Tuple[Point, ...]]:
    """The polylines that legs make."""
    left = [ends_of(leg) for leg in legs]
    made: List[Tuple[Point, ...]] = []
    while left:
        line = list(left.pop(0))
        if line[0] == line[1]:
            made.append((line[0],))
            continue
        for _ in (1, 2):
            while True:
                further = taken(left, line[-1], line[-2])
                if further is None:
                    break
                line.append(further)
            line.reverse()
        made.append(tuple(line))
    return made


def ends_of(leg: Box) -> Tuple[Point, Point]:
    """The two ends of a leg, which are one point where it has no other."""
    x0, y0, x1, y1 = leg
    return (x0, y0), (x1 - 1, y1 - 1)


def taken(left: List[Tuple[Point, Point]], end: Point, before: Point) -> Optional[Point]:
    """Takes the first leg that goes on from an end: its other end; none where no leg does."""
    for at, ends in enumerate(left):
        if end in ends and ends[0] != ends[1]:
            other = ends[1] if ends[0] == end else ends[0]
            if not is_back(before, end, other):
                del left[at]
                return other
    return None


def is_back(before: Point, at: Point, after: Point) -> bool:
    """Whether two legs that meet at a point lie over each other."""
    return (at[0] - before[0]) * (after[0] - at[0]) + (at[1] - before[1]) * (after[1] - at[1]) < 0


def is_narrow(patch: Box, half: int) -> bool:
    """Whether a patch is narrower than the pen, which then cannot draw inside it."""
    x0, y0, x1, y1 = patch
    return min(x1 - x0, y1 - y0) < 2 * half + 1


def outline(patch: Box, half: int) -> Stroke:
    """The outline of a patch that is not narrower than the pen, with all of its ink inside the patch."""
    x0, y0, x1, y1 = inner(patch, half)
    if x0 == x1 or y0 == y1:
        return Stroke(0, tuple(dict.fromkeys([(x0, y0), (x1, y1)])))
    return Stroke(0, ((x0, y0), (x1, y0), (x1, y1), (x0, y1), (x0, y0)))


def hatch(patch: Box, half: int) -> Stroke:
    """A patch that is not narrower than the pen, filled by strokes from side to side, with all of its ink inside."""
    x0, y0, x1, y1 = inner(patch, half)
    rows = list(range(y0, y1, 2 * half + 1)) + [y1]
    corners: List[Point] = []
    for at, y in enumerate(rows):
        corners += [(x0, y), (x1, y)] if at % 2 == 0 else [(x1, y), (x0, y)]
    return Stroke(0, tuple(dict.fromkeys(corners)))


def inner(patch: Box, half: int) -> Box:
    """The points of a patch that the pen's middle may take, the last ones included."""
    x0, y0, x1, y1 = patch
    return x0 + half, y0 + half, x1 - 1 - half, y1 - 1 - half
