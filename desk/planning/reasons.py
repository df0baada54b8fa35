"""What blocks a wish that is open, by names. That something cannot be is said only where an answer or the pen's rule
shows it: two things that are too near each other for the pen, or no way where nothing is on the foil but what is never
touched and the ends of the others."""
from typing import NamedTuple, Optional

from desk import boxes, words
from desk.planning.ends import Box, End, Way, box_of, legs, near
from desk.planning.given import Wish
from desk.planning.reading import Reading

# how many things are named
NAMED = 3


class Reason(NamedTuple):
    """Why a wish is open, and whether it cannot be."""
    said: str
    impossible: bool


class Foil(NamedTuple):
    """What reasons are found on: the foil's size and pen, its patches and the names of keys, the wishes and their ways,
    and what the search has found: ways of nets that are alone, and nets that have none beside the ends of others."""
    size: tuple[int, int]
    pen: tuple[int, int]
    patches: list[Box]
    reading: Reading
    wishes: list[Wish]
    ways: dict[int, Way]
    alone: dict[int, Optional[Way]]
    shut: list[int]

    @property
    def margin(self) -> int:
        """How many points lie at least between a track and a patch, or the edge."""
        return sum(self.pen)

    @property
    def reach(self) -> int:
        """How many points lie at least between two tracks' middles."""
        return 2 * self.pen[0] + self.pen[1]


def too_near(one: str, other: str, between: int, needed: int) -> str:
    """That two things are too near each other."""
    return f"{one} and {other} are too near for the pen: {words.count(between, 'point')}, {needed} are needed"


def reason(foil: Foil, wish: Wish) -> Reason:
    """Why a wish is open."""
    for end in wish.ends:
        said = blocked(foil, end)
        if said:
            return Reason(said, True)
    for end in wish.ends:
        for other in foil.wishes:
            for theirs in other.ends if other.net != wish.net else ():
                if end.point and theirs.point and near((box_of(end.point),), (box_of(theirs.point),), foil.reach):
                    between = boxes.apart(box_of(end.point), box_of(theirs.point))
                    return Reason(too_near(end.called, theirs.called, between, foil.reach), True)
    start, end = (end.called for end in wish.ends)
    if wish.net in foil.alone and not foil.alone[wish.net]:
        return Reason(f"no way leads from {start} to {end}, whatever is laid", True)
    if wish.net in foil.shut:
        return Reason(f"no way leads from {start} to {end} beside the ends of the others", True)
    alone = foil.alone.get(wish.net)
    barring = [str(net) for net, way in foil.ways.items() if alone and near(legs(alone), legs(way), foil.reach)]
    if not barring:
        return Reason("no way was found", False)
    return Reason(f"in its way: {'net' if len(barring) == 1 else 'nets'} {words.listed(barring, NAMED)}", False)


def blocked(foil: Foil, end: End) -> str:
    """What blocks an end whatever is laid; empty where nothing does."""
    if end.point is None:
        return "" if end.contacts else shut_in(foil, end)
    box, (width, height) = box_of(end.point), foil.size
    if end.point[0] >= width or end.point[1] >= height:
        return f"{end.called} is off the foil"
    for patch in foil.patches:
        if near((box,), (patch,), foil.margin):
            between = boxes.apart(box, patch)
            if boxes.area(boxes.common(box, patch)):
                return f"{end.called} is on {called(foil, patch)}"
            return too_near(end.called, called(foil, patch), between, foil.margin)
    edge = to_edge(box, foil.size)
    return too_near(end.called, "the edge", edge, foil.margin) if edge < foil.margin else ""


def shut_in(foil: Foil, end: End) -> str:
    """Why a key has no point beside it at which a track could end."""
    key, needed = foil.reading.keys[end.called], 2 * foil.margin + 1
    close = sorted((boxes.apart(key, patch), called(foil, patch)) for patch in foil.patches
                   if patch != key and boxes.apart(key, patch) < needed)
    if not close and to_edge(key, foil.size) < needed:
        close = [(to_edge(key, foil.size), "the edge")]
    said = [too_near(end.called, other, between, needed) for between, other in close[:NAMED]]
    return ", ".join(said) or f"{end.called} has no free point beside it"


def to_edge(box: Box, size: tuple[int, int]) -> int:
    """How many points lie between a box and the nearest edge."""
    return max(0, min(box[0], box[1], size[0] - box[2], size[1] - box[3]))


def called(foil: Foil, patch: Box) -> str:
    """A patch by its name, or by where it is."""
    return next((name for name, box in foil.reading.keys.items() if box == patch), "the patch %d %d %d %d" % patch)
