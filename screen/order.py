"""The order that is open: the texts of its eight foils, the version, and the way back. A change is a new text of one
foil; texts are kept whole, so that an undo gives back the same bytes."""
import functools
from typing import NamedTuple

from desk import textform
from desk.folders import FOILS


class Step(NamedTuple):
    """A change: the foil, its text before and its text after."""
    foil: int
    before: str
    after: str


class Read(NamedTuple):
    """A text that was read, or what of it cannot be."""
    text: textform.Text
    faults: list


@functools.lru_cache(maxsize=64)
def read(source):
    """A text, read. One without a word is no job."""
    try:
        text = textform.read(source)
    except textform.Unreadable as unreadable:
        return Read(None, unreadable.faults)
    return Read(text if text.lines else None, [])


class Order:
    """An order: its name, its texts, and its changes."""

    def __init__(self, name="", texts=None, saved=True):
        self.name, self.version = name, 1
        self.texts = tuple(texts or [""] * FOILS)
        self.saved = self.texts if saved else None
        self.done, self.undone = [], []
        # words: who else has it open, what its folder lacks, which changes were never saved, and why no draft is kept
        self.other, self.amiss, self.draft, self.unkept = "", "", "", ""
        self.reads = [read(text) for text in self.texts]

    def jobs(self, foil=None, text=None):
        """The jobs of the foils, none for one that has no readable text; with another text of one foil."""
        made = [of.text and of.text.job for of in self.reads]
        if foil is not None:
            changed = read(text)
            made[foil] = changed.text and changed.text.job
        return tuple(made)

    @property
    def unsaved(self):
        """Whether the texts are others than those that were opened or saved."""
        return self.texts != self.saved

    def put(self, foil, text):
        """Puts another text, and counts the version up."""
        texts = list(self.texts)
        texts[foil] = text
        self.texts = tuple(texts)
        self.reads[foil] = read(text)
        self.version += 1

    def change(self, foil, text):
        """A change, which can be undone."""
        self.done.append(Step(foil, self.texts[foil], text))
        self.undone.clear()
        self.put(foil, text)

    def undo(self):
        """Takes the last change back: its foil, or none where there is none."""
        if not self.done:
            return None
        step = self.done.pop()
        self.undone.append(step)
        self.put(step.foil, step.before)
        return step.foil

    def redo(self):
        """Does the last change again that was taken back: its foil, or none where there is none."""
        if not self.undone:
            return None
        step = self.undone.pop()
        self.done.append(step)
        self.put(step.foil, step.after)
        return step.foil
