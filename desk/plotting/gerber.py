"""Gerber RS-274X, for printers of circuits: millimetres with six decimals from the lower left, y upwards. Nothing is
rounded.

The pen is a square aperture: a draw with it along x or y covers exactly the points that the table's rule inks, ends
and corners too. A stroke of one point is a flash, and a filled patch a region."""
from typing import Iterator, List

from desk import millimetres
from desk.plotting.sheets import Area, Line, NotPlotted, Sheet

START = "G04 Key foil"
# a coordinate has four digits before its decimals
MOST = 9_999 * millimetres.MM
# the number of the first aperture
FIRST = 10


def written(sheet: Sheet) -> str:
    """The sheet as Gerber."""
    placed = sheet.placed(upwards=True)
    if max(placed.wide, placed.high) > MOST:
        raise NotPlotted("the sheet is too large for Gerber, which has four digits for millimetres")
    return "".join(f"{block}\n" for block in blocks(placed))


def blocks(placed: Sheet) -> Iterator[str]:
    """The blocks of the file, from its head to its end."""
    apertures = {wide: FIRST + at for at, wide in enumerate(sorted({line.wide for line in placed.lines}))}
    yield from (f"{START}: {placed.title}*", "%FSLAX46Y46*%", "%MOMM*%", "%LPD*%")
    for wide, number in apertures.items():
        side = millimetres.shown(wide)
        yield f"%ADD{number}R,{side}X{side}*%"
    yield "G01*"
    for area in placed.areas:
        yield from region(area)
    wide = 0
    for line in placed.lines:
        if line.wide != wide:
            wide = line.wide
            yield f"D{apertures[wide]}*"
        yield f"G04 foil {line.foil} {f'net {line.net}' if line.net else 'patch'}*"
        yield from stroke(line)
    yield "M02*"


def stroke(line: Line) -> List[str]:
    """A stroke: moved to its first corner, and drawn from there to each further one; or a flash."""
    (x, y), *others = line.corners
    if not others:
        return [f"X{x}Y{y}D03*"]
    return [f"X{x}Y{y}D02*"] + [f"X{x}Y{y}D01*" for x, y in others]


def region(area: Area) -> List[str]:
    """A filled patch."""
    x0, y0, x1, y1 = area.box
    round_it = [(x1, y0), (x1, y1), (x0, y1), (x0, y0)]
    return ["G36*", f"X{x0}Y{y0}D02*"] + [f"X{x}Y{y}D01*" for x, y in round_it] + ["G37*"]
