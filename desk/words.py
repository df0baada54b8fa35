"""What came of each line of a text, in words. `table` has those of refusals."""
import bisect
import textwrap
from typing import NamedTuple

from desk import console, textform
from desk.refusals import refusal

# the columns that words beside a line have at least; where there are fewer, they stand below it
BESIDE = 36


class Row(NamedTuple):
    """A row of what is printed: a line's number or none, what stands there, what came of it, whether it was refused."""
    number: int
    said: str
    words: list
    refused: bool = False


def turned_down(how, number, table):
    """The words of a refusal: what it says, and what to do."""
    says, to_do = refusal(number, table)
    return ["%s (%d): %s" % (how, number, says)] + (["what to do: " + to_do] if to_do else [])


def listed(things, most):
    """Things in a row; the first of them, and how many more, where there are too many."""
    if len(things) > most:
        things = things[:most] + ["%d more" % (len(things) - most)]
    return " and ".join([", ".join(things[:-1])] * (len(things) > 1) + things[-1:])


def count(n, thing, ending="s"):
    """So many of a thing."""
    return "%s %s%s" % (n or "no", thing, "" if n == 1 else ending)


def accepted(step, said):
    """What an accepted step did."""
    if step.word == "board":
        half, gap = step.pen
        pen = "reach %d" % gap if len(step.numbers) == 3 else "a pen of half width %d with gap %d" % (half, gap)
        return "begun: %d by %d points, %s" % (step.numbers[0], step.numbers[1], pen)
    if step.word == "track":
        return "laid: %s, length %d" % (count(said.bends, "bend"), said.length)
    return {"patch": "drawn", "lift": "lifted", "leg": "put back as it was booked"}[step.word]


class Told:
    """What is told of steps: the words of a number once, where it is first met. `names` has those of steps, and `notes`
    what would help with refused ones, by the steps' keys."""

    def __init__(self, table, names, notes):
        self.table, self.names, self.notes, self.first = table, names, notes, {}

    def of(self, outcome, line):
        """What came of a step on a line."""
        if outcome.said is None:
            return ["not done"]
        name = '"%s" ' % self.names[outcome.key] if self.names.get(outcome.key) else ""
        if not outcome.said.number:
            return [name + accepted(outcome.step, outcome.said)]
        number, note = outcome.said.number, "; ".join(self.notes.get(outcome.key, []))
        if number not in self.first:
            self.first[number] = line
            return turned_down(name + "refused", number, self.table) + (["here: " + note] if note else [])
        return ["%srefused (%d): %s" % (name, number, note or "as on line %d" % self.first[number])]


def left_free(strips):
    """What a job leaves free."""
    points = sum((x1 - x0) * (y1 - y0) for x0, y0, x1, y1 in strips)
    return "%s free, in %s" % (count(points, "point"), count(len(strips), "strip")) if strips else "no point is free"


def rows(text, run, table, names={}, notes={}):
    """The rows for a text whose job was run: for each of its lines, those of the records that begin on it. `names` and
    `notes` are those of steps, by their keys."""
    told = Told(table, names, notes)
    fault = run.fault and turned_down("at fault", run.fault.number, table)
    if fault and run.fault.number == 18:
        return [Row(None, "the whole file", fault, True)]
    places = [outcome.place for outcome in run.outcomes]
    shown = []
    for line in text.lines:
        begun = run.outcomes[bisect.bisect_left(places, line.place):bisect.bisect_left(places, line.after)]
        shown += line_rows(line, begun, run, told)
    if fault and run.place == len(text.job):
        shown.append(Row(None, "the end of the file", fault, True))
    return shown


def line_rows(line, begun, run, told):
    """The rows for a line: the steps that begin on it, then the end mark or what is at fault, where that is on it."""
    ends = run.place is not None and line.place <= run.place < line.after
    if ends and run.fault:
        begun = [outcome for outcome in begun if outcome.said]
    shown = [Row(line.number, textform.step_text(outcome.step), told.of(outcome, line.number), is_refused(outcome))
             for outcome in begun]
    if ends and run.fault:
        shown.append(Row(line.number, line.said, turned_down("at fault", run.fault.number, told.table), True))
    elif ends:
        shown.append(Row(line.number, "end", [left_free(run.strips)]))
    elif not begun:
        above = run.place is not None and line.place < run.place
        shown.append(Row(line.number, line.said, ["part of the line above" if above else "not done"]))
    return shown


def is_refused(outcome):
    """Whether a step was run and refused."""
    return outcome.said is not None and outcome.said.number != 0


def page(shown, width=console.WIDTH):
    """The rows as lines: number, what stands there, and the words beside it, broken where they are long; or the words
    below it, where the lines are to be short."""
    wide = min(28, max((len(row.said) for row in shown), default=0))
    lines, last = [], None
    for row in shown:
        number = "" if row.number in (None, last) else row.number
        last = row.number
        said = row.said if len(row.said) <= wide else row.said[:wide - 2] + ".."
        before = "%5s  %-*s  " % (number, wide, said)
        if width - len(before) < BESIDE:
            lines.append(before.rstrip())
            before = " " * 9
        for words in row.words:
            room = max(width - len(before), 1)
            for part in textwrap.wrap(words, room, break_long_words=False, break_on_hyphens=False):
                lines.append(before + part)
                before = " " * len(before)
    return "".join(line + "\n" for line in lines)
