"""The formats of plot files: how each is written, and how its files are called."""
from typing import Callable, List, NamedTuple, Sequence

from desk import millimetres
from desk.plotting import gcode, gerber, hpgl, rows, sheets, vectors


class Format(NamedTuple):
    """A format: how its files end and start, what writes a sheet, the unit to which it rounds, in nanometres, whether
    filled patches are strokes in it, and what is to be said of a sheet."""
    ending: str
    start: str
    write: Callable[[sheets.Sheet], str]
    unit: int = 1
    hatched: bool = False
    told: Callable[[sheets.Sheet], List[str]] = lambda sheet: []


FORMATS = {
    "hpgl": Format(".hpgl", hpgl.START, hpgl.written, hpgl.UNIT, True, hpgl.told),
    "gerber": Format(".gbr", gerber.START, gerber.written),
    "svg": Format("-plot.svg", vectors.START, vectors.written),
    "gcode": Format(".gcode", gcode.START, gcode.written, hatched=True),
    "csv": Format(".csv", rows.START, rows.written),
}
DEFAULT = "hpgl"


class Plot(NamedTuple):
    """A plot file, and what is to be said of it."""
    content: bytes
    told: Sequence[str]


def plot_of(title: str, foils: Sequence[sheets.Foil], manner: sheets.Manner, name: str = DEFAULT) -> Plot:
    """The plot file of some foils in a format."""
    form = FORMATS[name]
    for foil in foils:
        if foil.size < form.unit:
            raise sheets.NotPlotted(f"a point of {millimetres.shown(foil.size)} mm is smaller than the unit of {name}, "
                                    f"{millimetres.shown(form.unit)} mm: points would lie over each other")
    sheet = sheets.sheet_of(plain(title), foils, manner, form.hatched)
    return Plot(form.write(sheet).encode("ascii"), form.told(sheet))


def plain(title: str) -> str:
    """A name as the comments of all formats can hold it."""
    return "".join(letter if letter.isascii() and (letter.isalnum() or letter in " -_+.,") else "_" for letter in title)
