"""Foils on which plans are measured, each from a seed alone; every end is free on the empty foil.

pads         random pads, each joined to a near one: there may be no plan at all
reader       keys in columns, pins along the lower edge, keys to pins by a planar plan that was laid first
solvable-N   N ways laid first in a random order, half of them pushed aside by a wall; then only their ends are kept,
             in a shuffled order
tight-N      the same, each way the longest of five; then every row and column is taken out without which the plan still
             holds: as dense as that plan can be

To make tight foils takes a second each: the first hundred of each corpus that the test has a floor for are stored
beside this file, a line each."""
import json
import pathlib
import random
from typing import Any, Callable, NamedTuple, Optional

import keyfoil

Point = tuple[int, int]
Box = tuple[int, int, int, int]
Way = tuple[Point, ...]
WALL = 999
STYLES = ["box", "inner", "mixed"]
HERE = pathlib.Path(__file__).resolve().parent


class Foil(NamedTuple):
    """A foil: its size, its pen's half width and gap, its patches, and its nets in the given order."""
    size: tuple[int, int]
    pen: tuple[int, int]
    patches: list[Box]
    nets: list[tuple[int, Point, Point]]

    @property
    def text(self) -> str:
        """The foil as a text."""
        shown = ["board %d %d pen %d %d" % (*self.size, *self.pen)]
        shown += ["patch %d %d %d %d" % patch for patch in self.patches]
        shown += ["track %d %d %d %d %d" % (net, *start, *end) for net, start, end in self.nets]
        return "\n".join(shown + ["end", ""])


def ink(way: Any) -> int:
    """The length of a way."""
    return sum(abs(a[0] - b[0]) + abs(a[1] - b[1]) for a, b in zip(way, way[1:]))


def begun(size: tuple[int, int], pen: tuple[int, int]) -> Any:
    """A new foil."""
    foil = keyfoil.Sheet().foil(0)
    assert foil.new(*size, *pen).accepted
    return foil


def pads(seed: int) -> Foil:
    """Random pads among patches, each joined to a near one."""
    rng = random.Random(seed)
    side = rng.randint(60, 200)
    gap = rng.randint(0, 2)
    many, patches, points = rng.randint(6, 24), [], []
    foil = begun((side, side), (0, gap))
    for _ in range(rng.randint(2, 12)):
        x, y = rng.randint(gap, side - 20), rng.randint(gap, side - 20)
        patches.append((x, y, x + rng.randint(2, 18), y + rng.randint(2, 18)))
        foil.draw(*patches[-1])
    for _ in range(5000):
        point = (rng.randrange(side), rng.randrange(side))
        if foil.look_up(point).accepted and all(
                max(abs(point[0] - x), abs(point[1] - y)) > 2 * gap + 2 for x, y in points):
            points.append(point)
        if len(points) == 2 * many:
            break
    rng.shuffle(points)
    nets: list[tuple[int, Point, Point]] = []
    while len(points) >= 2:
        start = points.pop()
        points.sort(key=lambda point: abs(start[0] - point[0]) + abs(start[1] - point[1]))
        nets.append((len(nets) + 1, start, points.pop(rng.randrange(min(4, len(points))))))
    return Foil((side, side), (0, gap), patches, nets)


def reader(seed: int) -> Foil:
    """Keys in columns; each has its contact beside it, and a pin that a random planar plan gave it."""
    rng = random.Random(1000 + seed)
    while True:
        columns, rows = rng.randint(2, 5), rng.randint(2, 5)
        half, gap = rng.randint(0, 2), rng.randint(0, 3)
        margin, pitch = half + gap, 2 * half + gap + 1
        wide, high = rng.randint(8, 16), rng.randint(6, 12)
        # lanes are a little too narrow for straight plans
        lane = 2 * margin + 1 + pitch * max(1, rows - 1 + rng.randint(-1, 1))
        alley = 2 * margin + 1 + pitch * rng.randint(1, 2)
        width = 2 * margin + 1 + lane + columns * (wide + lane)
        height = 2 * margin + 1 + alley + rows * (high + alley) + pitch * rng.randint(2, rows + 2)
        foil = begun((width, height), (half, gap))
        patches, contacts = [], []
        for column in range(columns):
            for row in range(rows):
                x, y = margin + lane + column * (wide + lane), margin + alley + row * (high + alley)
                patches.append((x, y, x + wide, y + high))
                foil.draw(*patches[-1])
                contacts.append([(x + wide + margin, y + high // 2), (x - 1 - margin, y + high // 2),
                                 (x + wide // 2, y + high + margin), (x + wide // 2, y - 1 - margin)][rng.randrange(4)])
        pins = [(x, height - 1 - margin) for x in range(margin, width - margin, pitch)]
        rng.shuffle(contacts)
        for k, (x, y) in enumerate(contacts):
            foil.put_leg(500 + k, x, y, x + 1, y + 1)
        nets: list[tuple[int, Point, Point]] = []
        for k, start in enumerate(contacts):
            foil.lift(500 + k)
            reach = rng.choice([pitch, 3 * pitch, width // 2])
            for pin in sorted(pins, key=lambda pin: abs(pin[0] - start[0]) + rng.random() * reach)[:12]:
                if foil.board.entries > 112:
                    break
                if foil.lay(len(nets) + 1, start, pin).accepted:
                    nets.append((len(nets) + 1, start, pin))
                    pins.remove(pin)
                    break
        if len(nets) >= 4:
            rng.shuffle(nets)
            return Foil((width, height), (half, gap), patches, nets)


def solvable(seed: int, many: int) -> Foil:
    """A box filled by a random planar plan."""
    rng = random.Random(100000 * many + seed)
    pen = rng.randint(0, 2), rng.randint(0, 3)
    style, cells = rng.choice(STYLES), 2 + (6 * many) ** 0.5 * rng.uniform(0.9, 1.3)
    while True:
        size = size_of(rng, cells, pen)
        done = filled(Filling(rng, many, size, pen, style, 1))
        if done:
            nets = [(net, way[0], way[-1]) for net, way in done[1]]
            rng.shuffle(nets)
            return Foil(size, pen, done[0], nets)
        cells *= 1.04


def size_of(rng: random.Random, cells: float, pen: tuple[int, int]) -> tuple[int, int]:
    """The size of a foil that has so many cells of the pen a side, about."""
    margin, pitch = sum(pen), 2 * pen[0] + pen[1] + 1
    width = int(2 * margin + 1 + cells * pitch * rng.uniform(0.8, 1.25))
    return width, int(2 * margin + 1 + cells * pitch * rng.uniform(0.8, 1.25))


def tight(seed: int, many: int) -> Foil:
    """A foil that is as dense as a plan for it can be."""
    rng = random.Random(7000000 + 100000 * many + seed)
    pen = rng.randint(0, 2), rng.randint(0, 3)
    style = rng.choice(STYLES)
    cells = 2 + (6 * many) ** 0.5 * rng.uniform(0.9, 1.3) * (1 if many < 20 else 1.4)
    while True:
        size = size_of(rng, cells, pen)
        done = filled(Filling(rng, many, size, pen, style, 5))
        if done:
            break
        cells *= 1.04 if many < 20 else 1.1
        if cells > 150:
            cells, style = 2 + (6 * many) ** 0.5, rng.choice(STYLES)
    size, patches, ways = squeezed(size, pen, *done)
    nets = [(net, way[0], way[-1]) for net, way in ways]
    rng.shuffle(nets)
    return Foil(size, pen, patches, nets)


def squeezed(size: tuple[int, int], pen: tuple[int, int], patches: list[Box], ways: list[tuple[int, Way]]) -> Any:
    """A plan without the rows and columns that it can spare."""
    more = True
    while more:
        more = False
        for axis in (0, 1):
            for cut in range(size[axis] - 1, -1, -1):
                def moved(place: Any) -> Any:
                    return tuple(v - (k % 2 == axis and v > cut) for k, v in enumerate(place))
                less = (size[0] - 1, size[1]) if axis == 0 else (size[0], size[1] - 1)
                new = [moved(p) for p in patches], [(net, tuple(map(moved, way))) for net, way in ways]
                if all(p[0] < p[2] and p[1] < p[3] for p in new[0]) and holds(less, pen, *new):
                    size, (patches, ways), more = less, new, True
    return size, patches, ways


def holds(size: tuple[int, int], pen: tuple[int, int], patches: list[Box], ways: list[tuple[int, Way]]) -> bool:
    """Whether a plan is booked on a new foil."""
    foil = keyfoil.Sheet().foil(0)
    return foil.new(*size, *pen).accepted and all(foil.draw(*patch).accepted for patch in patches) and all(
        foil.book(net, way).accepted for net, way in ways)


class Filling(NamedTuple):
    """How a foil is filled: by chance, with so many nets, each the longest of so many ways."""
    rng: random.Random
    many: int
    size: tuple[int, int]
    pen: tuple[int, int]
    style: str
    choice: int

    def point(self) -> Point:
        """A point, along the edge or anywhere."""
        rng, margin, (width, height) = self.rng, sum(self.pen), self.size
        if self.style == "box" or self.style == "mixed" and rng.random() < 0.5:
            if rng.random() < 0.5:
                return rng.randrange(margin, width - margin), rng.choice([margin, height - 1 - margin])
            return rng.choice([margin, width - 1 - margin]), rng.randrange(margin, height - margin)
        return rng.randrange(margin, width - margin), rng.randrange(margin, height - margin)


def filled(how: Filling) -> Optional[tuple[list[Box], list[tuple[int, Way]]]]:
    """Patches and ways that fill a foil; none where they do not get on it."""
    rng, many, (width, height), pen, _, choice = how
    margin, pitch = sum(pen), 2 * pen[0] + pen[1] + 1
    foil = begun(how.size, pen)
    patches: list[Box] = []
    for _ in range(rng.randint(0, 2 + many // 10)):
        w, h = rng.randint(1, 3 * pitch), rng.randint(1, 3 * pitch)
        if width - w <= 2 * pitch or height - h <= 2 * pitch:
            continue
        x, y = rng.randrange(width - w), rng.randrange(height - h)
        if foil.draw(x, y, x + w, y + h).accepted:
            patches.append((x, y, x + w, y + h))
    ways: list[tuple[int, Way]] = []
    misses, best = 0, []
    while len(ways) < many:
        misses += 1
        if misses > (choice if many >= 20 else 1) * ((25 if many <= 20 else 100) * many + 100):
            return None
        start, end = how.point(), how.point()
        if many > 20 and rng.random() < 0.7:
            # a foil has 128 entries: of many nets most must be short, or have few legs
            end = (start[0] + rng.randint(-5 * pitch, 5 * pitch), start[1] + rng.randint(-5 * pitch, 5 * pitch))
            end = (start[0], end[1]) if rng.random() < 0.3 else (end[0], start[1]) if rng.random() < 0.3 else end
            if not (margin <= end[0] < width - margin and margin <= end[1] < height - margin):
                continue
        if start == end or not foil.look_up(start).accepted or not foil.look_up(end).accepted:
            continue
        way = foil.find(start, end)
        if way.accepted and rng.random() < (0.5 if many <= 20 else 0.25):
            way = aside(how, foil, way, start, end)
        room = 124 - foil.board.entries - (3 if choice > 1 and many == 20 else 2) * (many - len(ways) - 1)
        most = 7 if choice == 1 or many < 20 else 6 if many == 20 else 4
        if not way.accepted or way.bends + 1 > min(room, most):
            continue
        best.append(way)
        if len(best) < choice:
            continue
        way, best = max(best, key=lambda way: ink(way.corners)), []
        if foil.book(len(ways) + 1, way.corners).accepted:
            ways.append((len(ways) + 1, tuple(map(tuple, way.corners))))
    return patches, ways


def aside(how: Filling, foil: Any, way: Any, start: Point, end: Point) -> Any:
    """A way that is pushed aside by a short wall across one of its legs, where there is one."""
    rng, (width, height), pitch = how.rng, how.size, 2 * how.pen[0] + how.pen[1] + 1
    k = rng.randrange(len(way.corners) - 1)
    (a, b), (c, d) = way.corners[k:k + 2]
    x, y, reach = (a + c) // 2, (b + d) // 2, rng.randint(1, 4) * pitch
    trial = foil.sheet.copy().foil(0)
    if b == d:
        trial.put_leg(WALL, x, max(0, y - reach), x + 1, min(height, y + reach + 1))
    else:
        trial.put_leg(WALL, max(0, x - reach), y, min(width, x + reach + 1), y + 1)
    other = trial.find(start, end)
    return other if other.accepted else way


def makers() -> dict[str, Callable[[int], Foil]]:
    """What makes the foils of each corpus, by its name."""
    made: dict[str, Callable[[int], Foil]] = {"pads": pads, "reader": reader}
    for many in (10, 20, 40):
        made[f"solvable-{many}"] = lambda seed, many=many: solvable(seed, many)
        made[f"tight-{many}"] = lambda seed, many=many: tight(seed, many)
    return made


def stored(name: str) -> list[Foil]:
    """The foils of a corpus that is stored."""
    rows = [json.loads(line) for line in HERE.joinpath(name + ".jsonl").read_text(encoding="ascii").splitlines()]
    return [Foil(tuple(size), tuple(pen), [tuple(patch) for patch in patches],
                 [(net, tuple(start), tuple(end)) for net, start, end in nets]) for size, pen, patches, nets in rows]


def store(name: str, foils: list[Foil]) -> None:
    """Stores the foils of a corpus."""
    shown = "".join(json.dumps(foil, separators=(",", ":")) + "\n" for foil in foils)
    HERE.joinpath(name + ".jsonl").write_text(shown, encoding="ascii")
