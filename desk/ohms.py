"""The ohms of the nets on a foil: the ink's figures, and the answer as it is read at the desk.

The program ohms_main takes the three figures of the ink as the bits of an f64 each, and answers in such bits. Its
numbers are shown in thousandths of an ohm, or whole on demand; nothing is reckoned here."""
import math
import re
import struct
from typing import NamedTuple, Optional, Sequence, Tuple

from desk import job as jobs

# what each figure is called, as a word of the command and in a sentence, and its range in README's table
RANGES = (
    ("--sheet", "ohms a square", "above 0 and at most 1,000", lambda figure: 0 < figure <= 1000),
    ("--width", "points in the width of a track", "1 to 64", lambda figure: 1 <= figure <= 64),
    ("--bend", "squares for a bend", "0 to 4", lambda figure: 0 <= figure <= 4),
)


class Ink(NamedTuple):
    """The ink's figures, and whether the width is the pen's."""
    sheet: float
    width: float
    bend: float
    of_pen: bool = False

    @property
    def bits(self):
        """As the program takes them."""
        return struct.pack("<3d", self.sheet, self.width, self.bend)

    def said(self):
        """In words."""
        return "ink: %s, tracks %s wide%s, %s for a bend" % (
            many(self.sheet, "ohm") + " a square", many(self.width, "point"), " (the pen's)" * self.of_pen,
            many(self.bend, "square"))


def ink_of(asked, job):
    """The ink that is asked for; the width of a track is the pen's, where none is given."""
    return Ink(asked.sheet, pen_width(job) if asked.width is None else asked.width, asked.bend, asked.width is None)


def pen_width(job):
    """The points across a line of the pen of a job's board; one where the board cannot be read."""
    records = jobs.read(job).records
    return 2 * records[0].steps[0].pen[0] + 1.0 if records and records[0].steps else 1.0


def many(figure, thing):
    """So many of a thing, with no more decimals than were given."""
    return "%s %s%s" % (plain(figure), thing, "" if figure == 1 else "s")


def plain(figure):
    """A number as one writes it."""
    return "%d" % figure if math.isfinite(figure) and figure == int(figure) else "%r" % figure


def row_of(line):
    """A line `ohms NET 0 BITS` of the program: the net and its ohms; none for another line."""
    found = re.fullmatch("ohms ([0-9]+) 0 ([0-9a-f]{16})", line)
    return found and (int(found[1]), struct.unpack(">d", bytes.fromhex(found[2]))[0])


def page(rows, ink, limit):
    """The ohms for reading: the figures of the ink, and a line for each net, with those above the limit called dead."""
    shown = [(net, "%.3f" % ohms, ohms) for net, ohms in rows]
    wide = max((len(number) for _, number, _ in shown), default=0)
    return ink.said() + "\n" + "".join("net %3d  %*s ohms%s\n" % (
        net, wide, number, "  dead: above %s" % plain(limit) if is_dead(ohms, limit) else "")
        for net, number, ohms in shown)


def exact(rows):
    """A line `NET OHMS` for each net, in decimals that read back to the very number."""
    return "".join("%d %r\n" % row for row in rows)


def is_dead(ohms, limit):
    """Whether a net has more ohms than a limit, where there is one."""
    return limit is not None and ohms > limit


def dead_said(rows: Sequence[Tuple[int, float]], limit: Optional[float]) -> str:
    """Which nets are dead, in words; empty where none is."""
    dead = [str(net) for net, ohms in rows if is_dead(ohms, limit)]
    are = "1 net is" if len(dead) == 1 else f"{len(dead)} nets are"
    return f"{are} dead, with more than {plain(limit)} ohms: {', '.join(dead)}" if dead else ""


def out_of_range(ink):
    """The figures of an ink that was refused, those out of their range: what is said of each."""
    return ["%s %s: %s are %s" % (word, plain(figure), thing, span)
            for (word, thing, span, inside), figure in zip(RANGES, ink) if not inside(figure)]
