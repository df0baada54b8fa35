"""The check list of a foil: what whoever packs it would want to know. A line each, and none where there is nothing.

Two nets are short where their ink has a point in common, and too near where fewer points than the gap lie between. A
net is in parts where its ink is not of one piece: ink is of one piece where it has a point in common or lies side by
side; two points that touch at a corner do not."""
import functools
import itertools
import textwrap
from typing import NamedTuple

from desk import blocking, words
from desk.boxes import apart, area, common, widened

# so many entries a table has, and from so many on it is said that few are left
MOST, MANY = 128, 110
# how many lines there are for one thing
LISTED = 12


class Finding(NamedTuple):
    """A line of the check list: what is the matter, and where."""
    matter: str
    where: str


def findings(foil, most=LISTED):
    """The check list of a foil, with so many lines for one thing."""
    made = []
    for matter, found in (
            ("open", [open_track(track) for track in dict.fromkeys(foil.refused)]),
            ("not on the foil", [missing(box) for box in dict.fromkeys(foil.missing)]),
            ("short", shorts(foil)), ("too near", narrows(foil)), ("too near the edge", at_the_edge(foil)),
            ("in parts", in_parts(foil)), ("nearly full", nearly_full(foil))):
        made += [Finding(matter, where) for where in found[:most]]
        if len(found) > most:
            made.append(Finding(matter, "and %d more" % (len(found) - most)))
    return made


def named(net, name):
    """A net by its number, and its name."""
    return "net %d" % net + (" (%s)" % name if name else "")


def open_track(track):
    """A track that is open, with the number by which it was refused."""
    return "%s from %d,%d to %d,%d (%d)" % (named(track.net, track.name), *track.start, *track.end, track.number)


def missing(box):
    """A patch or a leg that is not on the foil, with the number."""
    name = " (%s)" % box.name if box.name else ""
    return "%s %d %d %d %d%s (%d)" % (box.called, *box.box, name, box.number)


def pairs(foil):
    """For each two nets the legs that are nearest to each other, and how many points lie between their ink: less than 0
    where it has points in common."""
    for one, other in itertools.combinations(foil.nets, 2):
        between, a, b = nearest_legs(tuple(one.legs), tuple(other.legs), foil.half)
        yield between, (one, a), (other, b)


@functools.lru_cache(maxsize=1 << 14)
def nearest_legs(one, other, half):
    """The legs of two nets that are nearest to each other, after how many points lie between their ink."""
    return min((between_ink(a, b, half), a, b) for a in one for b in other)


def between_ink(a, b, half):
    """How many points lie between the ink of two legs: less than 0 where it has points in common."""
    met = area(common(widened(a, half), widened(b, half)))
    return -met if met else apart(widened(a, half), widened(b, half))


def both(one, other):
    """Two nets, by number and name."""
    return "%s and %s" % tuple(named(net.net, net.name) for net, _ in sorted((one, other), key=lambda of: of[0].net))


def shorts(foil):
    """The pairs of nets that are short, with a point that is inked by both."""
    return ["%s have ink on %d,%d" % (both(one, other), *met_at(one[1], other[1], foil.half))
            for between, one, other in pairs(foil) if between < 0]


def met_at(a, b, half):
    """The first point that two legs have in common, or that their ink has."""
    on = common(a, b)
    return (on if area(on) else common(widened(a, half), widened(b, half)))[:2]


def narrows(foil):
    """The pairs of nets whose ink is nearer to each other than the gap."""
    return ["%s have %s between their ink, near %d,%d, and the gap is %d" % (
        both(one, other), words.count(between, "point"), *one[1][:2], foil.gap)
            for between, one, other in pairs(foil) if 0 <= between < foil.gap]


def at_the_edge(foil):
    """The nets with ink that is nearer to the edge than the gap."""
    pen, size = (foil.half, foil.gap), (foil.width, foil.height)
    legs = [(net, next((leg for leg in net.legs if blocking.past_edge(leg, size, pen)), None)) for net in foil.nets]
    return ["%s, by its leg %d %d %d %d" % (named(net.net, net.name), *leg) for net, leg in legs if leg]


def in_parts(foil):
    """The nets whose ink is not of one piece, with a leg of each part."""
    made = []
    for net in foil.nets:
        parts = parts_of(net.legs, foil.half)
        if len(parts) > 1:
            firsts = words.listed(["%d,%d" % part[0][:2] for part in parts], LISTED)
            made.append("%s has %d parts that do not meet, at %s" % (named(net.net, net.name), len(parts), firsts))
    return made


def parts_of(legs, half):
    """The legs of a net by parts."""
    parts = []
    for leg in legs:
        near = [part for part in parts if any(meets(leg, other, half) for other in part)]
        parts = [part for part in parts if part not in near] + [sum(near, []) + [leg]]
    return parts


def meets(a, b, half):
    """Whether the ink of two legs is of one piece."""
    x0, y0, x1, y1 = widened(a, half)
    other = widened(b, half)
    return area(common((x0 - 1, y0, x1 + 1, y1), other)) > 0 or area(common((x0, y0 - 1, x1, y1 + 1), other)) > 0


def nearly_full(foil):
    """How many entries there are, where few are left."""
    return ["%d of %d entries" % (foil.entries, MOST)] if foil.entries > MANY else []


def page(foil, width):
    """The check list as lines; empty where there is nothing to check."""
    found = findings(foil)
    shown = [textwrap.fill("%s: %s" % finding, width, initial_indent=" " * 7, subsequent_indent=" " * 11,
                           break_long_words=False, break_on_hyphens=False) for finding in found]
    return "".join(line + "\n" for line in ["check list:"] + shown) if found else ""
