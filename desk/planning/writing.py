"""A plan as lines of a text: `track` lines in an order in which plain lays do it, and legs for the ways that no plain
lay takes there."""
from typing import NamedTuple

from desk.planning.bench import Bench
from desk.planning.ends import Box, Way, box_of, legs, near
from desk.planning.given import Given, Wish
from desk.planning.reading import Reading

BY_LEGS = "a way that no plain lay takes here"
PLANNED = "# planned: "


class Line(NamedTuple):
    """The lines of a net: a track, or its legs."""
    net: int
    lines: list[str]
    by_legs: bool


def with_remark(said: str, remark: str) -> str:
    """A line with its remark."""
    return f"{said}  # {remark}" if remark else said


def track_line(wish: Wish, way: Way) -> str:
    """A wish that has a way as a track."""
    (a, b), (c, d) = way[0], way[-1]
    return with_remark(f"track {wish.net} {a} {b} {c} {d}", wish.remark)


def leg_lines(wish: Wish, way: Way) -> list[str]:
    """A wish that has a way as legs."""
    shown = [f"leg {wish.net} {' '.join(map(str, leg))}" for leg in legs(way)]
    return [with_remark(shown[0], "; ".join([wish.remark] * bool(wish.remark) + [BY_LEGS]))] + shown[1:]


def ordered(bench: Bench, wishes: list[Wish], ways: dict[int, Way], free: tuple[Box, ...]) -> list[Line]:
    """The lines of a plan, on a bench that has what is never touched. A track line is used where the plain lay leaves
    room for all ways to come, and for the points that are to be kept free."""
    reach = 2 * bench.foil.board.half + bench.foil.board.gap
    left = {wish.net: wish for wish in wishes if wish.net in ways}
    made = []
    while left:
        for net in sorted(left, key=lambda net: len(ways[net])):
            found = bench.foil.find(ways[net][0], ways[net][-1])
            boxes = legs(tuple(map(tuple, found.corners))) if found.accepted else ()
            others = [legs(ways[other]) for other in left if other != net]
            if boxes and not any(near(boxes, other, reach) for other in [*others, free]):
                bench.foil.lay(net, ways[net][0], ways[net][-1])
                made.append(Line(net, [track_line(left[net], ways[net])], False))
                break
        else:
            net = max(left, key=lambda net: len(ways[net]))
            bench.foil.book(net, ways[net])
            made.append(Line(net, leg_lines(left[net], ways[net]), True))
        del left[net]
    return made


def kept_free(reading: Reading, wishes: list[Wish], laid: set[int], reach: int) -> tuple[Box, ...]:
    """The pins that no laid net ends at, but for those that cannot be kept free: an end of a wish is too near."""
    met = {end.called for wish in wishes if wish.net in laid for end in wish.ends if end.is_pin}
    ends = {end.called: (box_of(end.point),) for wish in wishes for end in wish.ends if end.point}
    free = {name: box_of(point) for name, point in reading.pins.items() if name not in met}
    return tuple(box for name, box in free.items()
                 if not any(near((box,), end, reach) for called, end in ends.items() if called != name))


def text_of(reading: Reading, given: Given, planned: list[str]) -> str:
    """The text with these lines for its tracks and wishes: they stand where the first of those stood, or behind all
    that is never touched."""
    gone = {wanted.number for wanted in reading.wanted}
    gone |= {number for number, line in enumerate(reading.lines, 1) if line.startswith(PLANNED)}
    first = min(gone | {number for number, new in given.changes.items() if not new}, default=len(reading.lines) + 1)
    *steps, end = [line.number for line in reading.text.lines]
    stay = [number for number in steps if given.changes.get(number) != []]
    place = min(max([first - 1, *stay]), end - 1)
    made: list[str] = []
    for number, line in enumerate(reading.lines, 1):
        made += given.changes.get(number, [] if number in gone else [line])
        made += planned if number == place else []
    shown = "\n".join(made)
    return shown if shown.endswith("\n") else shown + "\n"
