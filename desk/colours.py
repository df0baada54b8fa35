"""The colours of tracks: six for paper and six for a dark window, and which net has which.

Each six stand out from the sheet, and are told apart by eyes that see no red, no green or no blue:
tests/test_colours.py works that out. Where there are more nets than colours, those of one colour are as far from each
other as can be."""
from desk.boxes import apart

PAPER = ("#1c0a6b", "#bb3355", "#3d97dc", "#6b1200", "#b98a0e", "#4455cc")
DARK = ("#8866dd", "#ff9944", "#33bbcc", "#dd4400", "#eeff11", "#88ffff")


def assigned(nets):
    """For each net, in order, the place of its colour: the one whose nets so far are farthest from it."""
    places = []
    for at, net in enumerate(nets):
        nearest = [float("inf")] * len(PAPER)
        for other, place in zip(nets[:at], places):
            nearest[place] = min(nearest[place], min(apart(a, b) for a in net.legs for b in other.legs))
        places.append(nearest.index(max(nearest)))
    return places
