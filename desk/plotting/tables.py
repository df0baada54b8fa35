"""The table of a foil, read from the bytes that a save gives: its board, its patches, and its legs by net."""
from typing import NamedTuple, Tuple

from desk import job as jobs, lines

# x0, y0, x1, y1, with the ends excluded; and a point
Box = Tuple[int, int, int, int]
Point = Tuple[int, int]


class Leg(NamedTuple):
    """A leg: its net, and its box, which is one point wide."""
    net: int
    box: Box


class Table(NamedTuple):
    """What is on a foil: its size, the pen's half width, and patches and legs in the order in which they are booked."""
    width: int
    height: int
    half: int
    patches: Tuple[Box, ...]
    legs: Tuple[Leg, ...]


def table_of(saved: bytes) -> Table:
    """The table that was saved. What is no board, patch or leg is Strange, and then nothing is believed."""
    reading = jobs.read(saved)
    steps = [step for record in reading.records for step in record.steps]
    if reading.number or not steps or {step.word for step in steps[1:]} - {"patch", "leg"}:
        raise lines.Strange("the program saved a foil that is none")
    width, height = steps[0].numbers[:2]
    return Table(width, height, steps[0].pen[0],
                 tuple(step.numbers for step in steps if step.word == "patch"),
                 tuple(Leg(step.net, step.numbers[1:]) for step in steps if step.word == "leg"))
