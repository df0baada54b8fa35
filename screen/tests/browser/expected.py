"""What is to be seen of a foil, without the screen: by the lines that the job program wrote, or by the library, asked
in the tests' own process."""
from typing import NamedTuple

from keyfoil import Sheet, load

from desk import colours, lines, textform
from screen.tests import given

# the colours of tracks, as Tab.picture has them
INKS = {int(colour[1:], 16) * 256 + 255 for colour in colours.PAPER}


class Foil(NamedTuple):
    """What is on a foil: its size, half the pen's width, patches, the legs of each net, the corners of each net that
    was laid, and the free strips."""
    width: int
    height: int
    half: int
    patches: list
    legs: dict
    corners: dict
    strips: list

    def points(self, box, by=0):
        """The points of a box that is so many points wider on each side, as far as they are on the foil."""
        x0, y0, x1, y1 = box
        return {(x, y) for x in range(max(x0 - by, 0), min(x1 + by, self.width))
                for y in range(max(y0 - by, 0), min(y1 + by, self.height))}

    def ink(self, net):
        """The points that have ink of a net."""
        return set().union(*(self.points(leg, self.half) for leg in self.legs[net]))


def legs_of(corners):
    """The boxes of the straights through corners."""
    pairs = zip(corners, corners[1:]) if len(corners) > 1 else [corners * 2]
    return [(min(a, c), min(b, d), max(a, c) + 1, max(b, d) + 1) for (a, b), (c, d) in pairs]


def by_lines(text, written):
    """The foil of a text by the lines that the job program wrote for it; none where there is no foil."""
    run = lines.run_of(textform.read(text).job, written)
    foil = None
    for _, step, said in run.outcomes:
        if said is None or said.number:
            continue
        if step.word == "board":
            foil = Foil(*step.numbers[:2], step.pen[0], [], {}, {}, [list(strip) for strip in run.strips or []])
        elif step.word == "patch":
            foil.patches.append(step.numbers)
        elif step.word == "track":
            foil.legs[step.net], foil.corners[step.net] = legs_of(said.corners), [list(at) for at in said.corners]
        elif step.word == "leg":
            foil.legs.setdefault(step.net, []).append(step.numbers[1:])
            foil.corners.pop(step.net, None)
        else:
            foil.legs.pop(step.net)
            foil.corners.pop(step.net, None)
    return foil


def by_library(text):
    """Foil 0 of a sheet of the tests' own, after the job of a text."""
    foil = Sheet(load(given.FOUND)).foil(0)
    foil.run_job(textform.read(text).job)
    return foil


def length_of(corners):
    """The steps along a way."""
    return sum(abs(a - c) + abs(b - d) for (a, b), (c, d) in zip(corners, corners[1:]))
