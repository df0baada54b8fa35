"""Where labels go: each to the best of the places that it may have, so that it covers no other label where that can be
helped. All is in the units of the page."""
import math
from typing import NamedTuple

from desk.boxes import area, common, inside

# what it costs that a label of usual area covers another label, or the ink of another net, or a patch, with all of it
AREA = 150
LABEL, INK, PATCH = 20, 2, 0.5
# what it costs to cover all of a track; of its own track, half of it costs a quarter; what it costs to cover all of a
# small patch
WHOLE, SMALL = 6, 1
# what it costs to be beside its own track, and past its end
BESIDE, PAST = 0.3, 0.4
# what it costs to be outside the frame
OUTSIDE = 1000
# what a place may cost before places far off are tried, ring by ring; what it costs to be far off, and for each unit of
# that
CROWDED, RINGS, FAR, FARTHER = 1.5, 24, 0.6, 0.004
# what it costs to take the next of two places that are as good
NEXT = 0.01


class Place(NamedTuple):
    """A centre that a label may have, what that costs by itself, and whether a line has to lead to it."""
    x: float
    y: float
    cost: float
    led: bool = False


class Wish(NamedTuple):
    """A label: its text, its size, the places that it may have, and the boxes of its own ink; the point to which a line
    leads where it has to go far off, none where it may not; its class; and what there is in its stead where there is no
    room for it: another label of the same ink, or nothing where it may be left out."""
    text: str
    wide: float
    high: float
    places: list
    ink: list
    point: tuple = None
    kind: str = "label"
    shorter: "Wish" = None
    left_out: bool = False

    @property
    def ink_area(self):
        """How much ink it has."""
        return sum(map(area, self.ink)) or 1

    @property
    def ink_cost(self):
        """What it costs another label to cover a unit of its ink."""
        return max(INK / AREA, WHOLE / self.ink_area)

    def box(self, place):
        """The label's box at a place."""
        return (place.x - self.wide / 2, place.y - self.high / 2, place.x + self.wide / 2, place.y + self.high / 2)


class Covered:
    """What is on the page: boxes, each with what it costs to cover a unit of it. They are kept in parts, by squares of
    the page, so that a label looks at what is near it."""
    SQUARE = 32

    def __init__(self):
        self.parts = {}

    def squares(self, box):
        """The squares that a box meets, each by its place among the squares."""
        x0, y0, x1, y1 = (int(number // self.SQUARE) for number in box)
        return [(x, y) for x in range(x0, x1 + 1) for y in range(y0, y1 + 1)]

    def add(self, box, cost):
        """Puts a box on the page."""
        for x, y in self.squares(box):
            square = (x * self.SQUARE, y * self.SQUARE, (x + 1) * self.SQUARE, (y + 1) * self.SQUARE)
            self.parts.setdefault((x, y), []).append((common(box, square), cost))

    def cost(self, box):
        """What it costs to cover a box of the page."""
        near = [entry for square in self.squares(box) for entry in self.parts.get(square, ())]
        return sum(cost * area(common(box, other)) for other, cost in near)


def placed(wishes, frame, patches):
    """The labels that there is room for, each with its place. Those that have the fewest places choose first, and those
    that may be left out last."""
    covered, made = Covered(), [None] * len(wishes)
    for box in patches:
        covered.add(box, max(PATCH, SMALL * AREA / area(box)) / AREA)
    for wish in wishes:
        for box in wish.ink:
            covered.add(box, wish.ink_cost)
    for at in sorted(range(len(wishes)), key=lambda at: (wishes[at].left_out, len(wishes[at].places))):
        made[at] = settled(wishes[at], frame, covered)
        if made[at]:
            wish, place = made[at]
            covered.add(wish.box(place), LABEL / AREA)
    return [pair for pair in made if pair]


def settled(wish, frame, covered):
    """A label with its best place, or the one in its stead; none where it is left out."""
    cost, place = best_place(wish, frame, covered)
    if cost > CROWDED and wish.shorter:
        return settled(wish.shorter, frame, covered)
    return None if cost > CROWDED and wish.left_out else (wish, place)


def best_place(wish, frame, covered):
    """The place of a label that costs least, or the first that costs little, with what it costs."""
    ink, rate = wish.ink_area, wish.ink_cost

    def cost(place):
        box = wish.box(place)
        own = sum(area(common(box, other)) for other in wish.ink)
        others = covered.cost(box) - rate * own
        return place.cost + others + WHOLE * (own / ink) ** 2 + (0 if inside(box, frame) else OUTSIDE)

    best = min(wish.places, key=cost)
    for ring in range(2, RINGS if wish.point else 0):
        if cost(best) <= CROWDED:
            break
        best = min([best] + far_off(wish.point, ring, wish.high), key=cost)
    return cost(best), best


def far_off(point, ring, high):
    """Places on a ring around a point; the rings are as far apart as a label is high."""
    turns, far = 4 * ring, ring * high
    angles = [math.tau * turn / turns for turn in range(turns)]
    return [Place(point[0] + far * math.cos(angle), point[1] + far * math.sin(angle), FAR + FARTHER * far, True)
            for angle in angles]


def along(legs, wide, high):
    """Places for a label of a track, the longest leg first: on its middle, towards its ends, beside it, past them."""
    places = []
    for x0, y0, x1, y1 in sorted(legs, key=lambda leg: leg[0] - leg[2] + leg[1] - leg[3]):
        level = x1 - x0 >= y1 - y0
        half, across = ((x1 - x0) / 2, (y1 - y0) / 2) if level else ((y1 - y0) / 2, (x1 - x0) / 2)
        off = across + (high / 2 + 1 if level else wide / 2 + 2)
        past = half + (wide / 2 + 2 if level else high / 2 + 1)
        shifts = (0, -half / 2, half / 2, -half * 0.8, half * 0.8)
        moves = [(shift, side, cost) for side, cost in ((0, 0), (-off, BESIDE), (off, BESIDE)) for shift in shifts]
        for shift, side, cost in moves + [(-past, 0, PAST), (past, 0, PAST)]:
            x, y = (shift, side) if level else (side, shift)
            places.append(Place((x0 + x1) / 2 + x, (y0 + y1) / 2 + y, cost + NEXT * len(places)))
    return places


def about(box, wide, high):
    """Places for a label of a box: on its middle, then above and below that, then outside it."""
    x0, y0, x1, y1 = box
    x, y = (x0 + x1) / 2, (y0 + y1) / 2
    off = high / 2 + 1
    rows = [(y, 0), ((y0 + y) / 2, NEXT), ((y + y1) / 2, NEXT), (y0 - off, BESIDE), (y1 + off, BESIDE)]
    beside = [(x0 - wide / 2 - 2, y, PAST), (x1 + wide / 2 + 2, y, PAST)]
    return [Place(*place) for place in [(x, row, cost) for row, cost in rows] + beside]


def on_line(start, end, wide, high):
    """Places for a label of a line: on its middle, towards its ends, then above, below and beside it."""
    (x0, y0), (x1, y1) = start, end
    side = wide / 2 + 6
    places = []
    for right, down in ((0, 0), (0, -high), (0, high), (side, 0), (-side, 0), (0, -2 * high), (0, 2 * high)):
        for share in (0.5, 0.4, 0.6, 0.3, 0.7, 0.2, 0.8, 0.1, 0.9):
            cost = NEXT * len(places) + (BESIDE if right or down else 0)
            places.append(Place(x0 + share * (x1 - x0) + right, y0 + share * (y1 - y0) + down, cost))
    return places
