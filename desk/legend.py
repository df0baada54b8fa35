"""The legend of a picture: what it explains, and where each of that stands under the foil."""
from typing import NamedTuple

from desk import blocking, words

# the height of a row, the width of a sample before its words and of the blank after them, and of a character
ROW, SAMPLE, BLANK, CHARACTER = 18, 24, 16, 6
# how many refused steps are named that are not in the picture
NAMED = 6


class Shown(NamedTuple):
    """What a picture shows of what was refused: the class of its tracks, how many of them and how many boxes, what is
    not in the picture, how many have no label; and whether ink is drawn wider than it is."""
    kind: str
    tracks: int
    boxes: int
    unseen: list
    unlabelled: int
    thickened: bool


def items(foil, strips, shown):
    """What there is to explain: pairs of a class of elements, or none for a remark, and the words."""
    pen = (foil.half, foil.gap)
    around = [words.count(blocking.reach(net, pen), "point") + " around a " + of
              for net, of, there in ((0, "patch", foil.patches), (1, "track", foil.nets)) if there]
    more = " and %d more" % (len(shown.unseen) - NAMED) if len(shown.unseen) > NAMED else ""
    every = (
        (foil.patches, "patch", "patch"),
        (foil.gap and around, "clearance", "clearance, %s around ink" % words.count(foil.gap, "point")),
        (foil.half and around, "kept", "no track's middle: %s" % ", ".join(around)),
        (foil.half + foil.gap, "edge", "edge zone, %s, blocked" % words.count(foil.half + foil.gap, "point")),
        (strips, "strip", "free strip"),
        (shown.tracks, shown.kind, "refused: net (number)"),
        (shown.boxes, "missing", "refused patch or leg (number)"),
        (shown.unseen, None, "not in the picture: %s%s" % (", ".join(shown.unseen[:NAMED]), more)),
        (shown.unlabelled, None, "without a label: %s" % words.count(shown.unlabelled, "refused step")),
        (shown.thickened and foil.nets, None, "ink is drawn wider than it is"),
    )
    return [(kind, text) for there, kind, text in every if there]


def rows(explained, left, right):
    """The items in rows from left to right: triples of the place where it begins, its class and its words."""
    made, x = [[]], left
    for kind, text in explained:
        wide = CHARACTER * len(text) + (SAMPLE if kind else 0)
        if made[-1] and x + wide > right:
            made.append([])
            x = left
        made[-1].append((x, kind, text))
        x += wide + BLANK
    return made
