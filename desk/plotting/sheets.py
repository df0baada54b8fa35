"""Foils on a sheet, in nanometres: where each lies, and in which order its strokes are drawn.

A point's middle lies half a point's size inside the point, and y grows downwards from the sheet's upper edge, as in the
desk's pictures. A format whose y grows upwards has the same sheet, not a mirrored one: there y is counted from the
lower edge (`Sheet.placed`). The foil with number K lies in column K % columns and row K // columns of the sheet, rows
from the top, at the upper left of its place; where it lies does not depend on which other foils are there."""
from typing import List, NamedTuple, Optional, Sequence, Tuple

from desk import millimetres
from desk.plotting import strokes
from desk.plotting.tables import Box, Point, Table

FOILS = 8
# how patches are drawn, where that is asked for
FILLED, OUTLINED = "filled", "outline"


class NotPlotted(Exception):
    """What is asked for cannot be plotted: why."""


class Foil(NamedTuple):
    """A foil: its number on the sheet, its name, its table, and the size of a point."""
    number: int
    title: str
    table: Table
    size: int


class Manner(NamedTuple):
    """How foils are plotted: their patches or not, in which order, how far from the origin, and for a sheet of several
    the distance from one to the next, and how many lie side by side."""
    patches: str = ""
    travel: bool = False
    offset: Point = (0, 0)
    pitch: Optional[Point] = None
    columns: int = 4


class Line(NamedTuple):
    """A stroke on the sheet: its foil, its net, 0 for a patch, its width, and its corners, in points of the foil and in
    nanometres."""
    foil: int
    net: int
    wide: int
    points: Tuple[Point, ...]
    corners: Tuple[Point, ...]

    def turned(self) -> "Line":
        """The same from its other end."""
        return self._replace(points=self.points[::-1], corners=self.corners[::-1])


class Area(NamedTuple):
    """A filled patch on the sheet: its foil, and its box, in points of the foil and in nanometres."""
    foil: int
    points: Box
    box: Box


class Sheet(NamedTuple):
    """What is drawn: a name, the sheet's size, its distance from the origin, filled patches, and lines in their order.
    """
    title: str
    wide: int
    high: int
    offset: Point
    areas: Tuple[Area, ...]
    lines: Tuple[Line, ...]

    def placed(self, upwards: bool) -> "Sheet":
        """The sheet at its distance from the origin, whose y grows downwards, or upwards from its lower edge."""
        def put(point: Point) -> Point:
            x, y = point
            return x + self.offset[0], (self.high - y if upwards else y) + self.offset[1]

        def put_box(box: Box) -> Box:
            (x0, y0), (x1, y1) = put(box[:2]), put(box[2:])
            return x0, min(y0, y1), x1, max(y0, y1)

        return self._replace(
            wide=self.wide + self.offset[0], high=self.high + self.offset[1], offset=(0, 0),
            areas=tuple(area._replace(box=put_box(area.box)) for area in self.areas),
            lines=tuple(line._replace(corners=tuple(map(put, line.corners))) for line in self.lines))


def sheet_of(title: str, foils: Sequence[Foil], manner: Manner, hatched: bool = False) -> Sheet:
    """The sheet of some foils; filled patches are strokes, where the format has no areas (`hatched`)."""
    lines: List[Line] = []
    areas: List[Area] = []
    for foil in foils:
        corner = corner_of(foil, manner)
        of_patches, filled = patches_of(foil, manner.patches, hatched)
        areas += [Area(foil.number, box, in_nanometres(box, foil.size, corner)) for box in filled]
        lines += [line_of(foil, stroke, corner) for stroke in of_patches + strokes.strokes_of(foil.table)]
    wide, high = size_of(foils, manner)
    ordered = by_travel(lines, (0, high)) if manner.travel else lines
    return Sheet(title, wide, high, manner.offset, tuple(areas), tuple(ordered))


def size_of(foils: Sequence[Foil], manner: Manner) -> Point:
    """The size of the sheet: that of its one foil, or of all places for foils."""
    if manner.pitch is None:
        foil, = foils
        return foil.table.width * foil.size, foil.table.height * foil.size
    return manner.columns * manner.pitch[0], -(-FOILS // manner.columns) * manner.pitch[1]


def corner_of(foil: Foil, manner: Manner) -> Point:
    """The upper left corner of a foil on the sheet, whose place must have room for it."""
    if manner.pitch is None:
        return 0, 0
    for side, points, pitch in zip(("wide", "high"), (foil.table.width, foil.table.height), manner.pitch):
        if points * foil.size > pitch:
            raise NotPlotted(f"foil {foil.number} ({foil.title}) is {millimetres.shown(points * foil.size)} mm {side}, "
                             f"and the pitch is {millimetres.shown(pitch)} mm: it would lie over the next")
    row, column = divmod(foil.number, manner.columns)
    return column * manner.pitch[0], row * manner.pitch[1]


def patches_of(foil: Foil, how: str, hatched: bool) -> Tuple[List[strokes.Stroke], List[Box]]:
    """The patches of a foil that are drawn, as strokes or as areas."""
    half = foil.table.half
    patches = list(dict.fromkeys(foil.table.patches)) if how else []
    if how == FILLED and not hatched:
        return [], patches
    for patch in patches:
        if strokes.is_narrow(patch, half):
            raise NotPlotted("the patch %d %d %d %d of foil %d is narrower than the pen, which is %d points wide, so "
                             "its strokes would go beyond it" % (*patch, foil.number, 2 * half + 1))
    draw = strokes.hatch if how == FILLED else strokes.outline
    return [draw(patch, half) for patch in patches], []


def line_of(foil: Foil, stroke: strokes.Stroke, corner: Point) -> Line:
    """A stroke of a foil on the sheet: its corners are the middles of points."""
    half_point = (corner[0] + foil.size // 2, corner[1] + foil.size // 2)
    corners = tuple((half_point[0] + x * foil.size, half_point[1] + y * foil.size) for x, y in stroke.corners)
    return Line(foil.number, stroke.net, (2 * foil.table.half + 1) * foil.size, stroke.corners, corners)


def in_nanometres(box: Box, size: int, corner: Point) -> Box:
    """A box of points on the sheet."""
    x0, y0, x1, y1 = (number * size for number in box)
    return corner[0] + x0, corner[1] + y0, corner[0] + x1, corner[1] + y1


def by_travel(lines: Sequence[Line], start: Point) -> List[Line]:
    """Lines in the order in which the pen takes the nearest end next, and draws from there. Of ends as near as each
    other it takes the first in the order that is given."""
    left, made, at = list(lines), [], start
    while left:
        ways = [(distance(at, line.corners[end]), place, end) for place, line in enumerate(left) for end in (0, -1)]
        _, place, end = min(ways, key=lambda way: (way[0], way[1], -way[2]))
        line = left.pop(place)
        made.append(line if end == 0 else line.turned())
        at = made[-1].corners[-1]
    return made


def distance(one: Point, other: Point) -> int:
    """The square of the distance of two points."""
    return (one[0] - other[0]) ** 2 + (one[1] - other[1]) ** 2
