"""What is saved of an order, and the pages for print: made by the desk's tools from what the library answered."""
import datetime
import re
from html import escape
from typing import Dict, List, Tuple
from xml.etree import ElementTree

from desk import checks, console, folders, millimetres, names, ohms, papers, picture, svg, words
from desk.plotting import formats, making, sheets
from screen import shown
from screen.library import Unasked
from screen.session import Fault, Session

# the narrowest and the widest that a point is printed, in millimetres
NARROWEST, WIDEST = 0.01, 50
PAGE = """<!DOCTYPE html>
<html lang="en">
<head>
<meta charset="utf-8">
<meta name="color-scheme" content="light">
<title>%(name)s, a point being %(mm)s mm</title>
<style>
@page { margin: 8mm }
body { margin: 0; color: #000000; background: #ffffff; font: 9pt sans-serif }
svg { display: block }
</style>
</head>
<body>
%(drawn)s
<p>%(name)s: a point is %(mm)s mm wide, the foil %(wide)s by %(high)s mm. Print it at 100 %%.</p>
</body>
</html>
"""


def title(session: Session, k: int, name: str = "") -> str:
    """What the papers of a foil are headed by: the name that it is saved under, or the order's."""
    return folders.stem(name or session.order.name or "foil", k)


def of_text(session: Session, k: int, name: str = "") -> papers.Answered:
    """A text and its job, as far as it can be read; nothing is asked."""
    text = session.order.reads[k].text
    return papers.Answered(title(session, k, name), session.order.texts[k], text and text.job)


def answered(session: Session, k: int, name: str = "") -> papers.Answered:
    """What the library answered of a text that leaves a foil."""
    account, made = session.account(k), of_text(session, k, name)
    ink, dead = shown.ink_figures(made.source, account.board["half"]), shown.texts.ink_of(made.source)["dead"]
    number, rows = session.measured(k)
    measured = rows if ink and not number else []
    said = ohms.dead_said(measured, dead)
    return made._replace(
        foil=account.foil, slip=account.held["slip"], ohms=ohms.page(measured, ink, dead) if measured else "",
        found=checks.findings(account.foil, len(account.run.outcomes)) + [checks.Finding("dead", said)] * bool(said))


def words_of(session: Session, k: int) -> str:
    """What came of each line of a text, and the check list."""
    text = session.order.reads[k].text
    if not text:
        return ""
    account = session.account_of(k, text, session.held()[k])
    said = words.page(words.rows(text, account.run, session.table, account.called, session.adviser.notes(account)))
    to_check = checks.page(account.foil, console.WIDTH) if account.is_done else ""
    return "\n".join(part for part in (said, to_check) if part)


def drawn(session: Session, k: int) -> str:
    """The picture of a foil."""
    return papers.drawn_of(answered(session, k))


def carton_page(session: Session, k: int) -> str:
    """The carton's page."""
    made = answered(session, k)
    return papers.page_of(made, papers.drawn_of(made), today())


def today() -> str:
    """The date on the papers."""
    return datetime.date.today().isoformat()


def printed(session, k, mm):
    """The foil as a page for print, a point being so many millimetres wide."""
    if not NARROWEST <= mm <= WIDEST:
        raise Fault("asked", "a point is printed %g to %g mm wide" % (NARROWEST, WIDEST))
    foil = session.account(k).foil
    scale = picture.Picture(foil, title(session, k), False, session.table).scale
    page = re.sub(r' xmlns="[^"]*"', "", drawn(session, k), count=1)
    tree = ElementTree.fromstring(page)
    for side in ("width", "height"):
        tree.set(side, "%smm" % svg.short(float(tree.get(side)) / scale * mm))
    return PAGE % {"name": escape(names.plain(title(session, k))), "mm": svg.short(mm), "drawn": svg.written(tree),
                   "wide": svg.short(foil.width * mm), "high": svg.short(foil.height * mm)}


def job_of(session: Session, k: int) -> making.Job:
    """What came of a foil's job, with its save."""
    account, said = session.account(k), session.ask({"ask": "save", "foil": k})
    return making.Job(account.run, account.foil, bytes.fromhex(said["bytes"]), said["number"])


def plotted(session: Session, k: int, mm: str, form: str, manner: sheets.Manner, is_open: bool) -> Dict[str, object]:
    """The plot file of a foil: its name, its content, and what is to be said of it."""
    if form not in formats.FORMATS or manner.patches not in ("", sheets.FILLED, sheets.OUTLINED):
        raise Fault("asked", "a plot file is " + ", ".join(formats.FORMATS) + ", with patches filled, outline or none")
    job, called = job_of(session, k), title(session, k)
    why = making.barring(job)
    if job.number or why and not is_open:
        raise Fault("open", "; ".join(why))
    try:
        size = making.size_of(session.order.texts[k], millimetres.size(mm) if mm else 0)
        foil = sheets.Foil(k, called, making.table_of(job), size)
        plot = formats.plot_of(called, [foil], manner, form)
    except (ValueError, sheets.NotPlotted) as fault:
        raise Fault("asked", str(fault))
    return {"name": folders.safe(called) + formats.FORMATS[form].ending, "content": plot.content.decode("ascii"),
            "told": list(plot.told)}


def filed(session: Session, k: int, name: str) -> making.Filed:
    """The plot file that a save writes."""
    source = session.order.texts[k]
    return making.filed(title(session, k, name), source, job_of(session, k)) if making.is_sized(source) else (
        making.Filed())


def files(session: Session, name: str) -> Tuple[Dict[str, bytes], List[str]]:
    """The files of an order by name, and what is to be said of them: why a foil has not all, or that a plot file is
    rounded."""
    made: Dict[str, bytes] = {}
    without: List[str] = []
    for k, source in enumerate(session.order.texts):
        if source.strip():
            told = of_text(session, k, name)
            try:
                told = told._replace(words=words_of(session, k))
                told = answered(session, k, name)._replace(words=told.words)
                plot = filed(session, k, name)
                told, without = told._replace(plot=plot.content), without + list(plot.told)
            except (Fault, Unasked) as fault:
                without.append(f"{told.title}: {fault}")
            made.update(folders.files_named(name, k, papers.files_of(told, today())))
    return made, without
