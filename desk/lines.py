"""The lines that the job program writes, and which step of the job each of them is about.

Whether a step was accepted is read off its line; nothing is worked out here. Lines that are not those of the job's
steps are Strange, and none is then believed."""
import re
from typing import NamedTuple

from desk import job as jobs


class Strange(Exception):
    """The program wrote lines that are not those of the job."""


class Said(NamedTuple):
    """A line: its word, its net or none, its number (0 where accepted), and a laid track's bends and corners."""
    word: str
    net: int
    number: int
    bends: int = 0
    corners: tuple = ()

    @property
    def length(self):
        """The steps of a laid track's legs."""
        return sum(abs(a - c) + abs(b - d) for (a, b), (c, d) in zip(self.corners, self.corners[1:]))


class Outcome(NamedTuple):
    """What came of a step of the record at a place; nothing was said where the job had ended before it."""
    place: int
    step: jobs.Step
    said: Said

    @property
    def key(self):
        """By what a step is known: the place of its record, and its word."""
        return self.place, self.step.word


class Run(NamedTuple):
    """What came of a job. Its strips are none where it did not come to a good end mark. `place` is that of the end
    mark, or of the record at which the file is at fault, and `fault` is then what was said of it. Where the board was
    refused all three are none."""
    outcomes: list
    strips: list
    fault: Said
    place: int

    @property
    def refused(self):
        """The outcomes of refused steps."""
        return [outcome for outcome in self.outcomes if outcome.said and outcome.said.number]


def said_of(line):
    """A line about a step or the file, read."""
    items = line.split(" ")
    if re.fullmatch(r"(board|patch|file) \d+", line):
        return Said(items[0], None, int(items[1]))
    if re.fullmatch(r"(track|lift|leg) \d+ \d+", line):
        return Said(items[0], int(items[1]), int(items[2]))
    if re.fullmatch(r"track \d+ 0 \d+( \d+,\d+)+", line):
        corners = tuple(tuple(int(n) for n in corner.split(",")) for corner in items[4:])
        return Said(items[0], int(items[1]), 0, int(items[3]), corners)
    raise Strange("the program wrote a line that is none of its own: `%s`" % line)


def run_of(job, written):
    """What came of a job, by what the program wrote for it."""
    strips, told = [], []
    for line in written.splitlines():
        if re.fullmatch(r"strip \d+ \d+ \d+ \d+", line):
            strips.append(tuple(int(n) for n in line.split()[1:]))
        else:
            told.append(said_of(line))
    fault = told.pop() if told and told[-1].word == "file" else None
    reading = jobs.read(job)
    steps = [(record.place, step) for record in reading.records for step in record.steps]
    for (_, step), said in zip(steps, told):
        if (said.word, said.net) != (step.word, step.net):
            raise Strange("the program wrote a line `%s` for a step `%s`" % (said.word, step.word))
    said_of_each = told + [None] * (len(steps) - len(told))
    outcomes = [Outcome(place, step, said) for (place, step), said in zip(steps, said_of_each)]
    left = steps[len(told):]
    if told and told[0].word == "board" and told[0].number:
        right, run = len(told) == 1 and not fault and not strips, Run(outcomes, None, None, None)
    elif fault:
        place = left[0][0] if left else reading.place
        between = not told or not left or place != steps[len(told) - 1][0]
        right, run = between and not strips, Run(outcomes, None, fault, place)
    else:
        right, run = not left and not reading.number, Run(outcomes, strips, None, reading.place - 1)
    if not right or len(told) > len(steps):
        raise Strange("the program's lines are not those of the job: %d lines for %d steps" % (len(told), len(steps)))
    return run
