"""The command ./foil-plot: the foil that a job leaves as a file for a plotter."""
import argparse
import pathlib
import re
from typing import List, NamedTuple, Optional, Sequence, Tuple

from desk import accounts, arguments, asking, console, foils, lines, millimetres, names, outputs, refusals, sources
from desk import statuses, textform, words
from desk.plotting import formats, making, sheets

HELP = """Writes the foil that a job leaves as strokes in millimetres, for a plotter or a printer of circuits:

    %(prog)s --mm 0.25 FILE > FOIL.hpgl
    %(prog)s --format gerber -o FOIL.gbr FILE
    %(prog)s --sheet A.txt B.txt --pitch 120,90 -o SHEET.hpgl

A point is SIZE mm wide, by --mm or by a remark `# point: 0.25 mm` of the text; without either nothing is plotted. The
strokes are the legs of the foil's table as ./foil-save has it: each leg once, the legs of a net that follow each other
in one stroke, as wide as the pen. HPGL, Gerber and G-code count from the lower left corner, y upwards; SVG and CSV from
the upper left, y downwards: it is the same foil.

Where a step was refused, a track is open, nets are short or a net is in parts, that is told and nothing is plotted,
unless --open is given. The exit status is by README's table."""
PLOT = asking.SAVE._replace(command="foil-plot")
# the statuses of foils, the gravest first
GRAVEST = (statuses.NO_FOIL, statuses.NO_ANSWER, statuses.REFUSED, statuses.ACCEPTED)
# a foil of a sheet that is given with its number
NUMBERED = re.compile("([0-7])=(.+)", re.S)


class Foil(NamedTuple):
    """A foil that was asked for: its source, its text, the size of a point, and its number on the sheet."""
    source: sources.Source
    text: textform.Text
    size: int
    number: int


class Done(NamedTuple):
    """What came of a foil: the status, what is to be said, and what is plotted, if anything is."""
    status: int
    said: Sequence[str]
    plotted: Optional[sheets.Foil] = None


def main(given: Optional[Sequence[str]] = None) -> int:
    """The command, by its words: its status."""
    return int(statuses.ended(lambda: do(read_words(given))))


def pair(word: str) -> Tuple[int, int]:
    """Two lengths in millimetres, parted by a comma."""
    try:
        x, y = map(millimetres.length, word.split(","))
    except ValueError:
        raise argparse.ArgumentTypeError(f"`{word}` is no pair of lengths in millimetres: write it as in 120,90")
    return x, y


def size(word: str) -> int:
    """The size of a point."""
    try:
        return millimetres.size(word)
    except ValueError as fault:
        raise argparse.ArgumentTypeError(str(fault))


def read_words(given: Optional[Sequence[str]]) -> argparse.Namespace:
    """What the command is asked for."""
    parser = arguments.Parser("foil-plot", HELP)
    parser.add_argument("--mm", metavar="SIZE", type=size, default=0,
                        help=f"the millimetres of a point: {millimetres.SAID}")
    parser.add_argument("--format", choices=list(formats.FORMATS), default=formats.DEFAULT,
                        help="the format of the file; where it is left out: %(default)s")
    parser.add_argument("-o", dest="out", metavar="OUT", type=pathlib.Path,
                        help="the file that is written; where it is left out: standard output")
    parser.add_argument("--order", choices=("nets", "travel"), default="nets",
                        help="nets rising, or the nearest stroke next; where it is left out: %(default)s")
    parser.add_argument("--patches", choices=(sheets.FILLED, sheets.OUTLINED), default="", help="draw patches too")
    parser.add_argument("--offset", metavar="X,Y", type=pair, default=(0, 0),
                        help="how far from the origin the foil or the sheet lies, in mm")
    parser.add_argument("--open", action="store_true", help="plot a foil with refused steps or a net in parts too")
    parser.add_argument("--sheet", metavar="FILE", nargs="+",
                        help="plot up to eight foils on a sheet: by their places in this list, by the numbers of an "
                             "order's texts (NAME.txt, NAME-2.txt), or as 5=FILE")
    parser.add_argument("--pitch", metavar="X,Y", type=pair, help="the mm from one foil of a sheet to the next")
    parser.add_argument("--columns", type=int, default=4, choices=range(1, sheets.FOILS + 1), metavar="N",
                        help="how many foils of a sheet lie side by side; where it is left out: 4")
    parser.add_source()
    asked = parser.parse_args(given)
    if bool(asked.sheet) != bool(asked.pitch):
        parser.error("--sheet and --pitch go together")
    if asked.sheet and asked.file:
        parser.error(f"{asked.file} stands apart from the foils of --sheet")
    return asked


def do(asked: argparse.Namespace) -> int:
    """Does what is asked: the status. Nothing is written unless all foils are plotted."""
    given = numbered(asked.sheet) if asked.sheet else [(0, sources.source(asked.file))]
    if asked.out:
        for _, source in given:
            outputs.refuse([outputs.Output(asked.out, "plot file")], source.path)
    wanted = [foil_of(source, number, asked.mm) for number, source in given]
    done = [done_of(foil, asked.open) for foil in wanted]
    for said in (said for each in done for said in each.said):
        console.complain(said)
    status = min((each.status for each in done), key=GRAVEST.index)
    plotted = [each.plotted for each in done if each.plotted]
    if len(plotted) < len(done):
        return status
    return status if is_written(plotted, asked) else statuses.NOT_DONE


def numbered(words: Sequence[str]) -> List[Tuple[int, sources.Source]]:
    """The foils of a sheet, each with its number."""
    found = [NUMBERED.fullmatch(word) for word in words]
    given = [sources.source(match[2] if match else word) for match, word in zip(found, words)]
    by_name = numbers_of_order([source.title for source in given])
    made: List[Tuple[int, sources.Source]] = []
    for at, (match, source) in enumerate(zip(found, given)):
        number = int(match[1]) if match else by_name[at] if by_name else at
        if number >= sheets.FOILS:
            raise statuses.Misused(f"a sheet has {sheets.FOILS} foils, and {len(words)} are named")
        taken = next((other for other_number, other in made if other_number == number), None)
        if taken:
            raise statuses.Misused(f"{taken.name} and {source.name} are both foil {number}: give numbers, as in "
                                   f"{number}={source.name}")
        made.append((number, source))
    return made


def numbers_of_order(titles: Sequence[str]) -> List[int]:
    """The numbers of the texts of one order, NAME and NAME-2; none where these are not such texts."""
    found = [re.fullmatch("(.*?)(?:-([1-7]))?", title, re.S) for title in titles]
    parts = [(match[1], int(match[2] or 0)) for match in found if match]
    is_order = len({name for name, _ in parts}) == 1 and len(set(parts)) == len(parts)
    return [number for _, number in parts] if is_order else []


def foil_of(source: sources.Source, number: int, given: int) -> Foil:
    """A foil that is asked for, with a size of its points that is given besides."""
    try:
        of_points = making.size_of(source.written(), given)
    except ValueError as fault:
        raise statuses.Misused(f"{source.name}: {fault}")
    return Foil(source, source.text(of_points), of_points, number)


def done_of(foil: Foil, is_open: bool) -> Done:
    """Asks the programs for a foil: what came of it."""
    text, name = foil.text, foil.source.name
    run, answer = asking.answered(PLOT, None, text.job)
    status, said = asking.status_of(run, answer), asking.said_besides(PLOT, text, run, answer)
    if status in (statuses.NO_FOIL, statuses.NO_ANSWER):
        return Done(status, [f"{name} is not plotted:", said])
    job = making.Job(run, foils.foil_of(run, names.names_of(text)), answer.printed)
    table, why = making.table_of(job), making.barring(job)
    strays, found = accounts.strays_told(name, text), [f"    {reason}" for reason in why[bool(run.refused):]]
    if why and not is_open:
        told = [f"{name} is not plotted: correct it, or give --open to plot the foil as it is"]
        return Done(statuses.NO_ANSWER, strays + told + refused_rows(text, run) + found)
    plotted = sheets.Foil(foil.number, foil.source.title, table, foil.size)
    return Done(status, strays + [said] * bool(said) + [f"{name}, as it is plotted:"] * bool(found) + found, plotted)


def refused_rows(text: textform.Text, run: lines.Run) -> List[str]:
    """The steps that were refused, in words, under a line that says how many."""
    rows = [row for row in words.rows(text, run, refusals.readme_table()) if row.refused]
    return [asking.many_refused(run) + ":", words.page(rows, console.width()).rstrip("\n")] if rows else []


def is_written(plotted: Sequence[sheets.Foil], asked: argparse.Namespace) -> bool:
    """Writes the plot file: whether that could be done."""
    manner = sheets.Manner(asked.patches, asked.order == "travel", asked.offset, asked.pitch, asked.columns)
    try:
        plot = formats.plot_of(", ".join(foil.title for foil in plotted), plotted, manner, asked.format)
    except sheets.NotPlotted as fault:
        raise statuses.Misused(str(fault))
    for told in plot.told:
        console.complain(told)
    if asked.out:
        return outputs.write(asked.out, plot.content)
    console.put(plot.content)
    return True
