"""What a command is given: a text or a job file, by its name or on standard input.

Which of the two it is shows in its bytes, whatever its name: a job whose board can be accepted has a byte 00 in its
first record, the high byte of its reach or of its pen's half width, and a text has none."""
import os
import pathlib
import stat
import sys
from typing import NamedTuple

from desk import console, statuses, textform
from desk.planning import reading as readings

# how many bytes are read at most: many times what a job of 60,000 bytes has as a text
MOST = 4_000_000
# how many lines of a text are told that cannot be read
TOLD = 20


class Source(NamedTuple):
    """What was given: its path, none for standard input, and its bytes."""
    path: pathlib.Path
    content: bytes

    @property
    def name(self):
        """Its name in what is said of it."""
        return str(self.path) if self.path else "standard input"

    @property
    def title(self):
        """Its name over a picture, in letters that a file can hold."""
        return self.path.stem.encode(errors="replace").decode() if self.path else "foil"

    @property
    def is_job(self):
        """Whether it is a job file; what is empty is one."""
        return b"\0" in self.content and not textform.is_wide(self.content) or not self.content

    @property
    def folder(self) -> pathlib.Path:
        """Where files stand that it names."""
        return self.path.parent if self.path else pathlib.Path()

    def written(self) -> str:
        """Its text as it is written, which for a job file is the one that `./foil --text` prints."""
        try:
            return textform.show(self.content) if self.is_job else textform.decoded(self.content)
        except textform.Unreadable as unreadable:
            raise self.unread(unreadable) from None

    def reading(self, size: int = 0) -> readings.Reading:
        """Its text with all that it names. `size` is that of a point, in nanometres, for a text that says none."""
        try:
            return readings.read(self.written(), self.folder, size)
        except textform.Unreadable as unreadable:
            raise self.unread(unreadable) from None

    def text(self, size: int = 0) -> textform.Text:
        """Its text in the words of a job, by the size of a point as above. A text with wishes is to be planned first."""
        found = self.reading(size)
        if found.wanted:
            raise statuses.Unread(f"{self.name} has {len(found.wanted)} lines `connect`, which are no tracks yet: "
                                  "./foil-plan makes tracks of them")
        return found.text

    def unread(self, unreadable: textform.Unreadable) -> statuses.Unread:
        """What is told of a text that cannot be read."""
        faults = unreadable.faults
        told = [f"{self.name}, line {number}: {why}" for number, why in faults[:TOLD]]
        more = len(faults) - TOLD
        return statuses.Unread(*told, *[f"and {more} more lines that cannot be read"] * (more > 0))


def source(word):
    """What a command is given by its word for it; none or `-` is standard input."""
    if word is None and console.waiting():
        raise statuses.Misused("no file is named, and nothing is sent to standard input: name a text or a job file, or "
                               "type one after `-`")
    path = None if word in (None, "-") else pathlib.Path(word)
    refuse_output(path)
    if path is None:
        content = console.take(MOST + 1)
    else:
        with open(path, "rb") as file:
            content = file.read(MOST + 1)
    if len(content) > MOST:
        raise statuses.Unread("%s has more than %d bytes, and no job has so many" % (path or "standard input", MOST))
    return Source(path, content)


def refuse_output(path):
    """Refuses to read the file that the shell has opened for the answer."""
    try:
        read, written = os.stat(0 if path is None else path), os.fstat(sys.stdout.fileno())
    except (OSError, AttributeError, ValueError):
        return
    if stat.S_ISREG(read.st_mode) and os.path.samestat(read, written):
        raise statuses.Misused("%s is where the answer would go: send that to another file (what stands after `>` is "
                               "emptied by the shell before anything is run)" % (path or "standard input"))
