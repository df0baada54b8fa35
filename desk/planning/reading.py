"""A whole text in which lines may name ends: the job's own lines, the keys, the pins, and what is to be connected.

A key is read as a patch with its name. A patch that a remark names (`# key: NAME`) is a key too. A pin and a wish give
no bytes: no job file has them."""
import difflib
import pathlib
import re
from typing import NamedTuple, Optional, Union

from desk import job as jobs, millimetres, names, textform
from desk.planning import grammar, tables
from desk.planning.ends import Box, Point

# what stands in quotes, a net that is wanted, and a length in millimetres, of which the last alone is put into points
LENGTHS = re.compile(r'"[^"]*"|^\s*connect\s+\S+|(?<![\w.])([0-9][0-9.]*mm)(?![\w.])', re.I)


class Wanted(NamedTuple):
    """A line `connect`: its number, the net, its ends by name or as points, and its remark."""
    number: int
    net: int
    ends: tuple[Union[str, Point], ...]
    remark: str

    @property
    def said(self) -> str:
        """The line without its remark."""
        return " ".join([f"connect {self.net}", *map(grammar.end_text, self.ends)])


class Reading(NamedTuple):
    """A text that was read: its lines, those of files put in; the text in the words of a job, its lines by the same
    numbers; keys, pins and wishes."""
    lines: list[str]
    text: textform.Text
    keys: dict[str, Box]
    pins: dict[str, Point]
    wanted: list[Wanted]


class Reader:
    """What was read of a text so far. `numbers` has for each line the one of the file that it comes from."""

    def __init__(self, ruler: millimetres.Ruler) -> None:
        self.ruler = ruler
        self.lines: list[str] = []
        self.plain: list[str] = []
        self.numbers: list[int] = []
        self.keys: dict[str, Box] = {}
        self.pins: dict[str, Point] = {}
        self.wanted: list[Wanted] = []
        self.faults: list[tuple[int, str]] = []

    def take(self, number: int, line: str, folder: Optional[pathlib.Path]) -> None:
        """Takes a line of the file."""
        try:
            said = grammar.said_of(in_points(line, self.ruler)) if grammar.word_of(line) else None
            if isinstance(said, grammar.Import):
                self.put(number, f"# {line.strip()}", None)
                for made in tables.lines_of(said, folder or pathlib.Path()):
                    self.put(number, made, grammar.said_of(made))
            else:
                self.put(number, line, said)
        except ValueError as fault:
            self.faults.append((number, str(fault)))
            self.put(number, "", None)

    def put(self, number: int, line: str, said: Optional[grammar.Said]) -> None:
        """Puts a line, and what it says."""
        self.lines.append(line)
        self.numbers.append(number)
        self.plain.append(line if said is None else "")
        if said is None:
            return
        remark = grammar.parted(line)[1]
        if isinstance(said, grammar.Key):
            self.name(said.name)
            self.keys[said.name] = said.box
            self.plain[-1] = f"patch {' '.join(map(str, said.box))}  # key: {said.name}; {remark}"
        elif isinstance(said, grammar.Pins):
            for name, point in said.pins:
                self.name(name)
                self.pins[name] = point
        elif isinstance(said, grammar.Connect):
            self.wanted.append(Wanted(len(self.lines), said.net, said.ends, remark))

    def name(self, name: str) -> None:
        """Refuses a name that is given already."""
        if name in self.keys or name in self.pins:
            raise ValueError(f"`{name}` is the name of another key or pin")

    def done(self) -> Reading:
        """The reading of all lines."""
        text = None
        try:
            text = textform.read("\n".join(self.plain), self.ruler.size)
            self.name_patches(text)
            if not self.faults:
                self.look_up_ends()
        except textform.Unreadable as unreadable:
            self.faults += [(self.numbers[number - 1], message) for number, message in unreadable.faults]
        if self.faults or text is None:
            raise textform.Unreadable(sorted(self.faults))
        return Reading(self.lines, text, self.keys, self.pins, self.wanted)

    def name_patches(self, text: textform.Text) -> None:
        """Takes patches for keys that a remark names. A name of several is none that a line can use."""
        steps = {record.place: record.steps for record in jobs.read(text.job).records}
        found: dict[str, list[Box]] = {}
        for (place, word), name in names.names_of(text).items():
            boxes = [step.numbers for step in steps.get(place, ()) if step.word == word == "patch"]
            found.setdefault(name, []).extend(boxes)
        for name, boxes in found.items():
            if len(boxes) == 1 and name not in self.keys and name not in self.pins:
                self.keys[name] = boxes[0]

    def look_up_ends(self) -> None:
        """Says which ends are no key and no pin."""
        for wanted in self.wanted:
            for end in wanted.ends:
                if isinstance(end, str) and end not in self.keys and end not in self.pins:
                    near = difflib.get_close_matches(end, [*self.keys, *self.pins], 1, 0.6)
                    hint = f": is it `{near[0]}`?" if near else ""
                    self.faults.append((self.numbers[wanted.number - 1],
                                        f"`{textform.seen(end)}` is no key, no pin and no point X,Y{hint}"))


def read(source: Union[str, bytes], folder: Optional[pathlib.Path] = None, size: int = 0) -> Reading:
    """Reads a text, which is given as text or as the bytes of its file; files that it names stand in the folder. `size`
    is that of a point, in nanometres, for a text that says none."""
    lines = textform.lines_of(source)
    reader = Reader(millimetres.ruler(lines, size))
    for number, line in enumerate(lines, 1):
        reader.take(number, line, folder)
    return reader.done()


def in_points(line: str, ruler: millimetres.Ruler) -> str:
    """A line with its lengths in millimetres as points; names in quotes and the remark stay as they are."""
    said, mark, remark = line.partition("#")
    return LENGTHS.sub(lambda found: str(ruler.points(found[1].lower())) if found[1] else found[0], said) + mark + remark
