"""The command ./foil-order: from each text of the day words, picture, job file, slip, ohms, plot file and the carton's
page, beside each other and beside the text in a folder by its name.

All that is in the folder is made from the text in it. A text that leaves no foil has its words and its job file, and
one that cannot be read stands alone. An order that would be written over another is asked for (desk/folders.py)."""
import argparse
import datetime
import pathlib
import sys
from typing import Dict, List, NamedTuple, Optional, Sequence

from desk import accounts, asking, building, checks, console, folders, lines, names, outputs, papers, refusals
from desk import remarks, sources, statuses, textform
from desk.arguments import Parser
from desk.plotting import making

HELP = """Makes all that goes with the foil of a text, in a folder by its name, and says what is to be checked:

    %(prog)s TEXT..
    %(prog)s --sheet 0.5 --bend 0.5 --to today keys.txt window.txt

In today/keys are then the text itself, what is made from it, and the page for the carton:

    keys.txt  keys-words.txt  keys.svg  keys.job  keys-slip.txt  keys-ohms.txt  keys.html

There are ohms only where the ink's figures are given, by --sheet and --bend or in the text (`# ink: sheet 0.5 bend
0.5`); the text that is kept has them. Where the text says how large a point is (`# point: 0.25 mm`), there is the plot
file of ./foil-plot too, keys.hpgl, unless the foil is one that it does not plot. Names in remarks, `# key: Page on`
after a patch and `# net: ..` after a track, stand in words, picture and page, and `# order: 4711; customer: Lewes
library; quantity: 12` on the page.

Where an order of that name is there and something of it would be lost, that is named, and asked for at a terminal;
elsewhere nothing is written then, unless --replace is given. Of several texts the exit status is that of the gravest:
4, 2, 3, 1, 6 in this order, by README's table."""
# the statuses of orders, the gravest first
GRAVEST = (statuses.NOT_DONE, statuses.NO_FOIL, statuses.NO_ANSWER, statuses.REFUSED, statuses.DEAD, statuses.ACCEPTED)
NO_INK = "there are no ohms: the ink's figures are not given (--sheet and --bend, or `# ink: ..` in the text)"
NO_NAMES = "is a job file: names and remarks are missing in the text that is kept of it"
AS_IT_WAS = "nothing was written: the order is as it was"


class Made(NamedTuple):
    """Made of a text: its files, by what they are called after its name, what is said of it, the status, and what is to
    be told besides."""
    files: Dict[str, bytes]
    said: str
    status: int
    told: Sequence[str] = ()


def main(given: Optional[Sequence[str]] = None) -> int:
    """The command, by its words: its status."""
    return int(statuses.ended(lambda: do(given)))


def read_words(given: Optional[Sequence[str]]) -> argparse.Namespace:
    """What the command is asked for."""
    parser = Parser("foil-order", HELP)
    parser.add_argument("--to", metavar="FOLDER", type=pathlib.Path, default=pathlib.Path("orders"),
                        help="where the folders of the orders are made; where it is left out: orders")
    parser.add_argument("--date", metavar="DATE", default=datetime.date.today().isoformat(),
                        help="the date on the carton's page; where it is left out: today's")
    parser.add_argument("--replace", action="store_true", help="write over orders that are there and differ")
    asking.add_figures(parser, needed=False)
    parser.add_argument("texts", metavar="TEXT", nargs="+", help="a text or a job file; `-` is standard input")
    asked = parser.parse_args(given)
    ink = {figure is not None for figure in (asked.sheet, asked.bend)}
    if len(ink) > 1 or ink == {False} and (asked.width is not None or asked.dead is not None or asked.exact):
        parser.error("the ink has two figures at least: --sheet and --bend")
    return asked


def do(given: Optional[Sequence[str]]) -> int:
    """Does what is asked: the status."""
    asked = read_words(given)
    texts = [sources.source(word) for word in asked.texts]
    refuse(texts, asked.to)
    return min([order(source, asked) for source in texts], key=GRAVEST.index)


def refuse(texts: List[sources.Source], to: pathlib.Path) -> None:
    """Refuses texts of one name, whose orders would be written over each other, names that are none of an order, and
    orders that would be written over what is given."""
    titles: Dict[str, str] = {}
    for source in texts:
        if source.title in titles:
            raise statuses.Misused(f"{titles[source.title]} and {source.name} have one name: their orders would be "
                                   "written over each other")
        titles[source.title] = source.name
    places = {outputs.place(source.path): source for source in texts if source.path}
    for source in texts:
        try:
            folder = folders.place(to, source.title)
        except folders.NoOrder as fault:
            raise statuses.Misused(f"{source.name}: {fault}")
        for file in folders.own_names(source.title):
            given = places.get(outputs.place(folder / file))
            if given and not (given is source and is_own(source, file)):
                raise statuses.Misused(f"{given.name} would be written over: give another folder (--to)")


def is_own(source: sources.Source, file: str) -> bool:
    """Whether a file of an order is the one that it is made from: its text, or its job file."""
    return file == folders.safe(source.title) + (".job" if source.is_job else ".txt")


def order(source: sources.Source, asked: argparse.Namespace) -> int:
    """Makes an order, puts it into its folder and says what came of it: the status."""
    try:
        made = made_of(source, asked)
    except statuses.Unread as unread:
        console.complain("\n".join([*unread.args, f"{source.name}: {AS_IT_WAS}"]))
        return statuses.NO_FOIL
    for told in made.told:
        console.complain(told)
    if not is_put(source, made, asked):
        return statuses.NOT_DONE
    console.put(f"{asked.to / folders.safe(source.title)}: {made.said}\n")
    return made.status


def is_put(source: sources.Source, made: Made, asked: argparse.Namespace) -> bool:
    """Puts an order into its folder, whole or not at all; over another where that is said. Whether it is there."""
    files, over = folders.files_named(source.title, 0, made.files), ""
    while True:
        try:
            folders.write(asked.to, source.title, files, [over], asked.replace)
            return True
        except folders.Differs as differs:
            if not is_said(asked.to / folders.safe(source.title), differs):
                return False
            over = differs.digest
        except folders.NoOrder as fault:
            console.complain(fault)
            return False
        except OSError as fault:
            console.complain(f"{asked.to / folders.safe(source.title)}: {fault.strerror}; {AS_IT_WAS}")
            return False


def is_said(folder: pathlib.Path, differs: folders.Differs) -> bool:
    """Says what differs, and asks at a terminal whether it is to be written over."""
    console.complain("\n    ".join([f"{folder} holds another order:", *differs.said]))
    if console.waiting() and sys.stderr.isatty():
        console.complain("write over it? (yes or no)")
        if sys.stdin.readline().strip().lower() in ("y", "yes"):
            return True
    console.complain(f"{AS_IT_WAS}; look at both, then give --replace, another name, or another folder (--to)")
    return False


def made_of(source: sources.Source, asked: argparse.Namespace) -> Made:
    """What is made of a text, with the ink that is asked for, or that the text has."""
    kept, date = source.written(), names.plain(asked.date)
    if asked.sheet is not None:
        kept = remarks.inked(kept, vars(asked), behind=True)
    else:
        asked = argparse.Namespace(**{**vars(asked), **remarks.ink_of(kept)})
    try:
        text = textform.read(kept)
    except textform.Unreadable as unreadable:
        files = papers.files_of(papers.Answered(source.title, kept), date)
        return Made(files, "there is no foil, and its text stands alone", statuses.NO_FOIL,
                    source.unread(unreadable).args)
    told = [f"{source.name} {NO_NAMES}"] * source.is_job + accounts.strays_told(source.name, text)
    account = accounts.account_of(text, building.built("job_main")[0])
    answered = papers.Answered(source.title, kept, text.job, account.page(refusals.readme_table()))
    if not account.is_done:
        said = "there is no foil, and its words say why"
        return Made(papers.files_of(answered, date), said, statuses.NO_FOIL, told)
    slip = asking.answered(asking.SLIP, asked, text.job)[1]
    inked = asked.sheet is not None and asked.bend is not None
    measured = asking.answered(asking.OHMS, asked, text.job)[1] if inked else asking.Answer(b"")
    dead = [checks.Finding("dead", measured.dead)] * bool(measured.dead)
    answered = answered._replace(
        foil=account.foil, found=checks.findings(account.foil, len(account.run.outcomes)) + dead,
        slip=slip.printed.decode("ascii"), ohms=measured.printed.decode())
    said = said_of(account.run, measured, checks.findings(account.foil) + dead)
    plot = plot_of(source.title, kept, account, asked)
    return Made(papers.files_of(answered._replace(plot=plot.content), date), said,
                asking.status_of(account.run, measured), told + [NO_INK] * (not inked) + list(plot.told))


def plot_of(title: str, kept: str, account: accounts.Account, asked: argparse.Namespace) -> making.Filed:
    """The plot file of a text that says how large a point is."""
    if not making.is_sized(kept):
        return making.Filed()
    run, answer = asking.answered(asking.SAVE, asked, account.text.job)
    number = answer.refused[1] if answer.refused else 0
    return making.filed(title, kept, making.Job(run, account.foil, answer.printed, number))


def said_of(run: lines.Run, measured: asking.Answer, found: List[checks.Finding]) -> str:
    """What is said of an order: how many steps were refused, why there are no ohms, and the check list."""
    many = asking.many_refused(run) if run.refused else "every step was accepted"
    refused = [f"no ohms, since the ink was refused ({measured.refused[1]}): {said}" for said in measured.why]
    return "\n    ".join([many, *refused, *(f"{matter}: {where}" for matter, where in found)])
