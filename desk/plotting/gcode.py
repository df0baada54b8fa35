"""G-code, for machines that move a pen: absolute millimetres from the lower left, y upwards, and nothing is rounded.
The pen is down at Z 0 and up at Z 2; it draws at 1200 mm a minute. The pen's width is the machine's: the head names the
one that is meant. G-code has no areas, so a filled patch is strokes."""
from typing import Iterator, List

from desk import millimetres
from desk.plotting.sheets import Line, Sheet

START = "(Key foil"
DOWN, UP = "G1 Z0 F600", "G0 Z2"
FEED = "F1200"


def written(sheet: Sheet) -> str:
    """The sheet as G-code."""
    return "".join(f"{block}\n" for block in blocks(sheet.placed(upwards=True)))


def blocks(placed: Sheet) -> Iterator[str]:
    """The blocks of the file, from its head to its end."""
    yield f"{START}: {placed.title})"
    yield from ("G21", "G90", UP)
    wide = 0
    for line in placed.lines:
        if line.wide != wide:
            wide = line.wide
            yield f"(pen {millimetres.shown(wide)} mm)"
        yield f"(foil {line.foil} {f'net {line.net}' if line.net else 'patch'})"
        yield from stroke(line)
    yield from ("G0 X0 Y0", "M2")


def stroke(line: Line) -> List[str]:
    """A stroke: the pen is moved to its first corner, put down, and lifted after its last."""
    first, *others = [f"X{millimetres.shown(x)} Y{millimetres.shown(y)}" for x, y in line.corners]
    return [f"G0 {first}", DOWN] + [f"G1 {corner} {FEED}" for corner in others] + [UP]
