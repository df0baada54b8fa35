"""A foil to be plotted: the size of its points, its table as the proved program saved it, and why it is not plotted
unless that is asked for."""
from typing import Dict, List, NamedTuple, Optional, Sequence

from desk import asking, checks, foils, lines, millimetres, textform
from desk.plotting import formats, sheets, tables

# what of the check list is scrap, if it is plotted
BARRING = ("open", "not on the foil", "short", "in parts")
NO_SIZE = "it is not known how large a point is: give its size (--mm), or put a line `# point: 0.25 mm` into the text"


class Job(NamedTuple):
    """What came of a job by the job program's lines, the foil that they leave, and the bytes of its save, or the number
    by which that was refused."""
    run: lines.Run
    foil: foils.Foil
    saved: bytes
    number: int = 0


def size_of(text: str, given: int = 0) -> int:
    """The size of a point, by a text or as it is given, 0 for not at all; a ValueError where there is none, or two."""
    of_text = millimetres.said(textform.lines_of(text))
    if of_text and given and of_text != given:
        raise ValueError(f"a point is {millimetres.shown(of_text)} mm by the text, and {millimetres.shown(given)} mm "
                         "as it is given (--mm): leave that out, or correct the text")
    if not of_text and not given:
        raise ValueError(NO_SIZE)
    return of_text or given


def table_of(job: Job) -> tables.Table:
    """The table that was saved. Where the job program's lines leave another, neither is believed."""
    table = tables.table_of(job.saved)
    legs: Dict[int, List[tables.Box]] = {}
    for net, box in table.legs:
        legs.setdefault(net, []).append(box)
    if (list(table.patches), legs) != (job.foil.patches, {net.net: net.legs for net in job.foil.nets}):
        raise lines.Strange("the programs job_main and save_main do not agree on the foil")
    return table


def barring(job: Job) -> List[str]:
    """Why a foil is not plotted unless that is asked for: steps that were refused, and what would be scrap."""
    refused = [f"the save of the foil was refused ({job.number})"] if job.number else []
    refused += [asking.many_refused(job.run)] if job.run.refused else []
    return refused + [f"{found.matter}: {found.where}" for found in checks.findings(job.foil)
                      if found.matter in BARRING]


class Filed(NamedTuple):
    """The plot file of an order, or none; and what is to be said of it."""
    content: Optional[bytes] = None
    told: Sequence[str] = ()


def is_sized(text: str) -> bool:
    """Whether a text says how large a point is, so that its order has a plot file."""
    return millimetres.remark(textform.lines_of(text)) is not None


def filed(title: str, text: str, job: Job) -> Filed:
    """The plot file for the order of a text that says how large a point is."""
    why = barring(job)
    if why:
        return Filed(None, [f"{title}: there is no plot file, since {why[0]}"])
    try:
        foil = sheets.Foil(0, title, table_of(job), size_of(text))
        plot = formats.plot_of(title, [foil], sheets.Manner())
    except (ValueError, sheets.NotPlotted) as fault:
        return Filed(None, [f"{title}: there is no plot file, since {fault}"])
    return Filed(plot.content, [f"{title}: {told}" for told in plot.told])
