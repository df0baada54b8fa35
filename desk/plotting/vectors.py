"""SVG, for cutters and drawing programs: strokes in millimetres and nothing else, no label and no ruler. y grows
downwards, as in the desk's pictures, and nothing is rounded. Ends and corners are square, as the table's rule inks
them."""
from typing import Iterator, Tuple

from desk import millimetres
from desk.plotting.sheets import Sheet

START = "<svg "


def written(sheet: Sheet) -> str:
    """The sheet as SVG."""
    return "".join(f"{line}\n" for line in elements(sheet.placed(upwards=False)))


def elements(placed: Sheet) -> Iterator[str]:
    """The elements, each on a line."""
    wide, high = millimetres.shown(placed.wide), millimetres.shown(placed.high)
    yield (f'{START}xmlns="http://www.w3.org/2000/svg" width="{wide}mm" height="{high}mm" '
           f'viewBox="0 0 {wide} {high}">')
    for area in placed.areas:
        x0, y0, x1, y1 = area.box
        x, y, across, down = map(millimetres.shown, (x0, y0, x1 - x0, y1 - y0))
        yield f'<rect data-foil="{area.foil}" x="{x}" y="{y}" width="{across}" height="{down}"/>'
    yield '<g fill="none" stroke="#000000" stroke-linecap="square" stroke-linejoin="miter">'
    for line in placed.lines:
        points = " ".join(map(pair, line.corners if len(line.corners) > 1 else line.corners * 2))
        yield (f'<polyline data-foil="{line.foil}" data-net="{line.net}" '
               f'stroke-width="{millimetres.shown(line.wide)}" points="{points}"/>')
    yield "</g>"
    yield "</svg>"


def pair(corner: Tuple[int, int]) -> str:
    """A corner in millimetres."""
    return ",".join(map(millimetres.shown, corner))
