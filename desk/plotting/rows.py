"""CSV, for programs and people: a row for each corner, with its foil, what it is of (track, outline or area), its net,
0 for a patch, the number of its stroke, its point, and the same in millimetres: from the sheet's upper left, y
downwards, as in the desk's pictures. Nothing is rounded. An area has two corners, of which the second is not part of
it."""
from typing import Iterator, Tuple

from desk import millimetres
from desk.plotting.sheets import Sheet

START = "foil,of,net,stroke,x,y,x_mm,y_mm,pen_mm"


def written(sheet: Sheet) -> str:
    """The sheet as CSV."""
    return "".join(",".join(map(str, row)) + "\n" for row in rows(sheet.placed(upwards=False)))


def rows(placed: Sheet) -> Iterator[Tuple[object, ...]]:
    """The rows, under a row that names their columns."""
    yield (START,)
    for at, area in enumerate(placed.areas, 1):
        for point, corner in ((area.points[:2], area.box[:2]), (area.points[2:], area.box[2:])):
            yield (area.foil, "area", 0, at, *point, *map(millimetres.shown, corner), 0)
    for at, line in enumerate(placed.lines, len(placed.areas) + 1):
        of = "track" if line.net else "outline"
        for point, corner in zip(line.points, line.corners):
            yield (line.foil, of, line.net, at, *point, *map(millimetres.shown, corner), millimetres.shown(line.wide))
