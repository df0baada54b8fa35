"""The files of a foil, all made from its text and from what the proved calls answered of that: by ./foil-order, which
asks the programs, as by the screen, which asks the library."""
from typing import Dict, NamedTuple, Optional, Sequence

from desk import carton, checks, foils, picture, refusals, remarks
from desk.plotting import formats


class Answered(NamedTuple):
    """A text, and what was answered of it: what its papers are headed by, the text as it is written, its job where it
    can be read, what came of each line; and where it leaves a foil that, its whole check list, its slip, its ohms for
    reading and its plot file. What is empty was not answered."""
    title: str
    source: str
    job: Optional[bytes] = None
    words: str = ""
    foil: Optional[foils.Foil] = None
    found: Sequence[checks.Finding] = ()
    slip: str = ""
    ohms: str = ""
    plot: Optional[bytes] = None


def files_of(answered: Answered, date: str) -> Dict[str, bytes]:
    """The files, by what they are called after the order's name: of a text that cannot be read it alone, of one that
    leaves no foil its job and its words besides."""
    made = {".txt": answered.source}
    made.update({"-words.txt": answered.words} if answered.words else {})
    if answered.foil is not None:
        drawn = drawn_of(answered)
        made.update({".svg": drawn, "-slip.txt": answered.slip, ".html": page_of(answered, drawn, date)})
        made.update({"-ohms.txt": answered.ohms} if answered.ohms else {})
    files = {ending: content.encode() for ending, content in made.items()}
    files.update({} if answered.plot is None else {formats.FORMATS[formats.DEFAULT].ending: answered.plot})
    return files if answered.job is None else {**files, ".job": answered.job}


def drawn_of(answered: Answered) -> str:
    """The picture."""
    drawn: str = picture.picture(answered.foil, answered.title, False, refusals.readme_table())
    return drawn


def page_of(answered: Answered, drawn: str, date: str) -> str:
    """The carton's page."""
    assert answered.foil is not None
    return carton.page(carton.Order(answered.title, date, remarks.particulars(answered.source), answered.foil,
                                    answered.slip, drawn, answered.found))
