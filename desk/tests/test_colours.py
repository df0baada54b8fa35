"""The colours: each six are told apart by every kind of eyes, and stand out from the sheet."""
import itertools
import re
import unittest

from desk import colours, svg
from desk.foils import Net

# what eyes see that have all cones, no red ones, no green ones, no blue ones; in linear light, by Machado, Oliveira and
# Fernandes
EYES = (
    ((1, 0, 0), (0, 1, 0), (0, 0, 1)),
    ((0.152286, 1.052583, -0.204868), (0.114503, 0.786281, 0.099216), (-0.003882, -0.048116, 1.051998)),
    ((0.367322, 0.860646, -0.227968), (0.280085, 0.672501, 0.047413), (-0.011820, 0.042940, 0.968881)),
    ((1.255528, -0.076749, -0.178779), (-0.078411, 0.930809, 0.147602), (0.004733, 0.691367, 0.303900)),
)


def light(colour):
    """A colour in linear light."""
    shares = [int(colour[at:at + 2], 16) / 255 for at in (1, 3, 5)]
    return [share / 12.92 if share <= 0.04045 else ((share + 0.055) / 1.055) ** 2.4 for share in shares]


def seen(colour, eyes):
    """A colour as eyes see it, in a space where distances are as seen (Oklab)."""
    r, g, b = (min(1, max(0, sum(m * c for m, c in zip(row, light(colour))))) for row in eyes)
    l = (0.4122214708 * r + 0.5363325363 * g + 0.0514459929 * b) ** (1 / 3)
    m = (0.2119034982 * r + 0.6806995451 * g + 0.1073969566 * b) ** (1 / 3)
    s = (0.0883024619 * r + 0.2817188376 * g + 0.6299787005 * b) ** (1 / 3)
    return (0.2104542553 * l + 0.7936177850 * m - 0.0040720468 * s,
            1.9779984951 * l - 2.4285922050 * m + 0.4505937099 * s,
            0.0259040371 * l + 0.7827717662 * m - 0.8086757660 * s)


def contrast(a, b):
    """The contrast of two colours, 1 to 21."""
    dark, bright = sorted(sum(w * c for w, c in zip((0.2126, 0.7152, 0.0722), light(colour))) for colour in (a, b))
    return (bright + 0.05) / (dark + 0.05)


def grounds(kind):
    """The colour of a part of the ground on paper and in a dark window."""
    return re.findall(r"\.%s \{ fill: (#\w+) \}" % kind, svg.STYLE)


class Colours(unittest.TestCase):
    def test_told_apart_by_all_eyes(self):
        for six in (colours.PAPER, colours.DARK):
            for eyes in EYES:
                for a, b in itertools.combinations(six, 2):
                    apart = sum((x - y) ** 2 for x, y in zip(seen(a, eyes), seen(b, eyes))) ** 0.5
                    self.assertGreater(apart, 0.12, (a, b))

    def test_stand_out_from_the_sheet(self):
        for kind, least in (("sheet", 3), ("kept", 2.7), ("clearance", 2.4)):
            for six, ground in zip((colours.PAPER, colours.DARK), grounds(kind)):
                for colour in six:
                    self.assertGreater(contrast(colour, ground), least, (kind, colour))

    def test_zones_are_told_apart(self):
        for at in (0, 1):
            zones = [grounds(kind)[at] for kind in ("sheet", "kept", "clearance")]
            for eyes in EYES:
                for a, b in itertools.combinations(zones, 2):
                    apart = sum((x - y) ** 2 for x, y in zip(seen(a, eyes), seen(b, eyes))) ** 0.5
                    self.assertGreater(apart, 0.02, (a, b))

    def test_near_nets_differ(self):
        nets = [Net(at, [(0, 3 * at, 50, 3 * at + 1)], 0, 49, None) for at in range(40)]
        places = colours.assigned(nets)
        self.assertEqual(set(places), set(range(6)))
        for a, b in zip(places, places[1:]):
            self.assertNotEqual(a, b)


if __name__ == "__main__":
    unittest.main()
