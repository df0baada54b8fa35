"""HPGL, for plotters: absolute coordinates in units of 0.025 mm from the lower left, y upwards, and the pen's width in
millimetres (PW) with round ends (LA), as a pen has them. Foils with other pens on the sheet have pens of their own, the
narrowest being pen 1. A filled patch is strokes of the pen.

A number that does not fall on a unit is rounded to the nearest, by at most 0.0125 mm, each by itself, so that nothing
adds up. A stroke of one point goes one unit to the right and back: a pen makes a dot of it, and programs that draw no
line without a length show it."""
from typing import Iterator, List

from desk import millimetres
from desk.plotting.sheets import Line, NotPlotted, Sheet

# a unit, in nanometres, and the largest number of units
UNIT, MOST = 25_000, 8_388_607
START = "IN;"


def written(sheet: Sheet) -> str:
    """The sheet as HPGL."""
    placed = sheet.placed(upwards=True)
    if max(units(placed.wide), units(placed.high)) > MOST:
        raise NotPlotted("the sheet is too large for HPGL")
    return "".join(f"{instruction};\n" for instruction in instructions(placed))


def instructions(placed: Sheet) -> Iterator[str]:
    """The instructions, from the start to the pen being put away."""
    yield from (START[:-1], "PA")
    pens = {wide: at for at, wide in enumerate(sorted({line.wide for line in placed.lines}), 1)}
    wide = 0
    for line in placed.lines:
        if line.wide != wide:
            wide = line.wide
            yield from (f"SP{pens[wide]}", f"PW{millimetres.shown(wide)}", "LA1,4")
        yield from stroke(line)
    yield from ("PU", "SP0")


def stroke(line: Line) -> List[str]:
    """A stroke: the pen is moved to its first corner, and put down."""
    (x, y), *others = [(units(x), units(y)) for x, y in line.corners]
    return [f"PU{x},{y}"] + [f"PD{x},{y}" for x, y in others or [(x + 1, y), (x, y)]]


def units(nanometres: int) -> int:
    """The nearest whole number of units; between two the higher one."""
    return (2 * nanometres + UNIT) // (2 * UNIT)


def told(sheet: Sheet) -> List[str]:
    """What is to be said of a sheet: that numbers are rounded, where they are."""
    lengths = [number for line in sheet.placed(upwards=True).lines for corner in line.corners for number in corner]
    if not any(length % UNIT for length in lengths):
        return []
    return ["HPGL counts in units of 0.025 mm, and points do not all fall on one: they are rounded to the nearest, by "
            "at most 0.0125 mm"]
