"""Ends of tracks, and ways. A way is the corners of a track; a box is x0, y0, x1, y1 with the ends excluded."""
import functools
from typing import NamedTuple, Optional

Point = tuple[int, int]
Box = tuple[int, int, int, int]
Way = tuple[Point, ...]


class End(NamedTuple):
    """An end of a track: what it is called, and the one point that it is; or, of a key, the boxes of the points beside
    it, each one point wide, of which any will do. A pin is kept free for its net."""
    called: str
    point: Optional[Point] = None
    contacts: tuple[Box, ...] = ()
    is_pin: bool = False


Ends = tuple[End, End]


def at(point: Point) -> str:
    """A point as a text has it."""
    return f"{point[0]},{point[1]}"


def box_of(point: Point) -> Box:
    """A point as a box."""
    x, y = point
    return (x, y, x + 1, y + 1)


def ink(way: Way) -> int:
    """The steps of a way."""
    return sum(abs(a - c) + abs(b - d) for (a, b), (c, d) in zip(way, way[1:]))


def cost(way: Way) -> tuple[int, int]:
    """By what ways are compared: their corners, then their ink."""
    return len(way), ink(way)


@functools.lru_cache(maxsize=1 << 12)
def legs(way: Way) -> tuple[Box, ...]:
    """The boxes of a way's legs, or of its one point."""
    pairs = list(zip(way, way[1:])) or [(way[0], way[0])]
    return tuple((min(a, c), min(b, d), max(a, c) + 1, max(b, d) + 1) for (a, b), (c, d) in pairs)


def near(some: tuple[Box, ...], others: tuple[Box, ...], reach: int) -> bool:
    """Whether a box has a point that is at most `reach` away, in x and in y, from one of another."""
    for x0, y0, x1, y1 in some:
        for a, b, c, d in others:
            if x0 - c < reach and a - x1 < reach and y0 - d < reach and b - y1 < reach:
                return True
    return False
