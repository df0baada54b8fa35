"""Why a way drawn by hand was refused (19): which of its corners or straights is at fault, and what blocks it. That it
is no way is what the library has said; here it is put into words, by the strips that the library gives and the rule of
desk/blocking.py."""
from typing import Iterator, List, Optional, Sequence, Tuple

from desk import advice

Point = Sequence[int]
Corners = Sequence[Point]
Strips = Sequence[Tuple[int, int, int, int]]

# how many faults are named, and how many straights are looked at
NAMED, MOST = 3, 400


def faults(case: advice.Case, strips: Strips, corners: Corners) -> List[str]:
    """What is at fault, from the first corner on: some sentences."""
    if not corners:
        return ["it has no corner"]
    said = list(limited(every(case, strips, corners[:MOST]), NAMED + 1))
    return said[:NAMED] + (["and more behind that"] if len(said) > NAMED else [])


def limited(said: Iterator[str], most: int) -> Iterator[str]:
    """The first sentences."""
    for _, sentence in zip(range(most), said):
        yield sentence


def every(case: advice.Case, strips: Strips, corners: Corners) -> Iterator[str]:
    """All faults, in the order of the corners."""
    if len(corners) == 1 and hindered(case, strips, corners[0], corners[0]):
        yield f"its only corner {hindered(case, strips, corners[0], corners[0])}"
    before = None
    for at in range(1, len(corners)):
        (ax, ay), (bx, by) = corners[at - 1], corners[at]
        level, upright = ay == by, ax == bx
        if level and upright:
            yield f"its corner {at + 1}, {bx},{by}, is its corner {at} again"
        elif not level and not upright:
            yield (f"its corner {at + 1}, {bx},{by}, is neither level with its corner {at}, {ax},{ay}, "
                   "nor upright over it")
        else:
            if before == level:
                yield f"its corner {at}, {ax},{ay}, is in the middle of a straight: leave it out"
            # the first point was looked at as the last one of the straight before
            blocked = hindered(case, strips, (ax, ay) if before is None else beyond((ax, ay), (bx, by)), (bx, by))
            if blocked:
                yield f"its straight from {ax},{ay} to {bx},{by} {blocked}"
        before = level if level != upright else None


def beyond(start: Point, end: Point) -> Point:
    """The point of a straight next to its start."""
    (ax, ay), (bx, by) = start, end
    return ax + (bx > ax) - (bx < ax), ay + (by > ay) - (by < ay)


def hindered(case: advice.Case, strips: Strips, start: Point, end: Point) -> str:
    """Where a straight is not free, and why; empty where it is."""
    point = first_outside(strips, start, end)
    if point is None:
        return ""
    x, y = point
    if x >= case.size[0] or y >= case.size[1]:
        return f"is off the foil at {x},{y}"
    near = advice.in_the_way(case, point)
    return f"is not free at {x},{y}, which is {near}" if near else f"is not free at {x},{y}"


def first_outside(strips: Strips, start: Point, end: Point) -> Optional[Tuple[int, int]]:
    """The first point of a straight, from its start on, that is in no strip."""
    axis = 0 if start[1] == end[1] else 1
    across, at, last = start[1 - axis], start[axis], end[axis]
    forward = last >= at
    spans = [(strip[axis], strip[axis + 2]) for strip in strips if strip[1 - axis] <= across < strip[3 - axis]]
    while (at <= last) if forward else (at >= last):
        span = next((span for span in spans if span[0] <= at < span[1]), None)
        if span is None:
            return (at, across) if axis == 0 else (across, at)
        at = span[1] if forward else span[0] - 1
    return None
