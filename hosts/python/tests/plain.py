"""A plain router for small foils, written apart from the library: what a call on a foil of a sheet comes to, worked out
over every point from what the sheet holds before it."""
from typing import NamedTuple

from keyfoil.answers import Board, Refusal

SHEET, ENTRIES, SURE = 512, 128, 32
LEVEL, UPRIGHT = 0, 1


class Refused(Exception):
    """A call is refused by a number."""

    def __init__(self, number):
        super().__init__(number)
        self.number = Refusal(number)


def refuse(number, applies):
    """Refuses by a number, if it applies."""
    if applies:
        raise Refused(number)


class Foil(NamedTuple):
    """A foil: its size, its pen, and its row of entries (net, x0, y0, x1, y1)."""
    w: int
    h: int
    half: int
    gap: int
    row: tuple

    def margin(self, entry):
        """How far away an entry blocks."""
        return (2 if entry[0] else 1) * self.half + self.gap

    def free(self):
        """The free points."""
        m = self.half + self.gap
        free = {(x, y) for x in range(m, self.w - m) for y in range(m, self.h - m)}
        for entry in self.row:
            d, (_, x0, y0, x1, y1) = self.margin(entry), entry
            free -= {(x, y) for x in range(x0 - d, x1 + d) for y in range(y0 - d, y1 + d)}
        return free

    def strips(self):
        """The strips: equal runs of neighbouring rows, joined."""
        free, strips, above = self.free(), [], {}
        for y in range(self.h):
            here, x = {}, 0
            while x < self.w:
                end = x
                while (end, y) in free:
                    end += 1
                if end > x:
                    here[x, end] = above.get((x, end), y)
                x = end + 1
            strips += [(x0, y0, x1, y) for (x0, x1), y0 in above.items() if here.get((x0, x1)) != y0]
            above = here
        strips += [(x0, y0, x1, self.h) for (x0, x1), y0 in above.items()]
        return tuple(sorted(strips, key=lambda strip: (strip[1], strip[0])))

    def crosses(self, patch, leg):
        """Whether a patch blocks a point of a leg."""
        d = self.margin(patch)
        return (not patch[0] and leg[0] and patch[1] - d < leg[3] and leg[1] < patch[3] + d
                and patch[2] - d < leg[4] and leg[2] < patch[4] + d)

    def nets(self):
        """The nets that are on it."""
        return sorted({entry[0] for entry in self.row} - {0})

    def holds(self, entry):
        """Whether an entry has the shape of a patch or a leg on the foil."""
        net, x0, y0, x1, y1 = entry
        return x0 < x1 <= self.w and y0 < y1 <= self.h and net <= 999 and (not net or 1 in (x1 - x0, y1 - y0))


def first_path(free, start, ends):
    """The first path over free points from a point to one of several: fewest bends, then least length, then by y and x
    of the corners. None if there is none."""
    if start in ends:
        return (start,)
    # the legs and steps from a point to an end, the first leg going level or upright
    costs = ({}, {})
    last = ({end: 0 for end in ends}, {end: 0 for end in ends})
    legs = 0
    while start not in costs[LEVEL] and start not in costs[UPRIGHT]:
        legs += 1
        new = ({}, {})
        for way in (LEVEL, UPRIGHT):
            for corner, steps in last[1 - way].items():
                for point, far in line(free, corner, way):
                    if point not in costs[way]:
                        new[way][point] = min(new[way].get(point, steps + far), steps + far)
        for way in (LEVEL, UPRIGHT):
            costs[way].update((point, (legs, steps)) for point, steps in new[way].items())
        if not new[LEVEL] and not new[UPRIGHT]:
            return None
        last = new
    left = min(costs[way][start] for way in (LEVEL, UPRIGHT) if start in costs[way])
    corners, ways = [start], [way for way in (LEVEL, UPRIGHT) if costs[way].get(start) == left]
    while left[0]:
        found = []
        for way in ways:
            for point, far in line(free, corners[-1], way):
                rest = (left[0] - 1, left[1] - far)
                if (rest == (0, 0) and point in ends) if rest[0] == 0 else costs[1 - way].get(point) == rest:
                    found.append(((point[1], point[0]), point, way, rest))
        _, point, way, left = min(found)
        corners.append(point)
        ways = [1 - way]
    return tuple(corners)


def line(free, point, way):
    """The other free points in a level or upright line with a point, and how far they are."""
    for sign in (1, -1):
        for far in range(1, 1 << 16):
            there = (point[0] + sign * far, point[1]) if way == LEVEL else (point[0], point[1] + sign * far)
            if there not in free:
                break
            yield there, far


def is_way(free, corners):
    """Whether corners are a way over free points."""
    legs = list(zip(corners, corners[1:]))
    for (ax, ay), (bx, by) in legs:
        points = {(x, y) for x in range(min(ax, bx), max(ax, bx) + 1) for y in range(min(ay, by), max(ay, by) + 1)}
        if (ax == bx) == (ay == by) or not points <= free:
            return False
    level = [a[1] == b[1] for a, b in legs]
    return bool(corners) and set(corners) <= free and all(a != b for a, b in zip(level, level[1:]))


def legs_of(net, corners):
    """The entries of a way."""
    return tuple((net, min(a[0], b[0]), min(a[1], b[1]), max(a[0], b[0]) + 1, max(a[1], b[1]) + 1)
                 for a, b in zip(corners, corners[1:] or corners))


class Held:
    """What a sheet holds: for each foil its record, its row and its strips."""

    def __init__(self, sheet):
        self.boards = [foil.board for foil in sheet.foils]
        self.rows = [tuple(map(tuple, foil.entries)) for foil in sheet.foils]
        self.strips = [foil.strips for foil in sheet.foils]
        # whether the strip places past the last strip are zero
        self.zeros = [not bytes(sheet.lists.strips[k])[8 * self.boards[k].strips:].strip(b"\0") for k in range(8)]

    def counts_fit(self):
        """Whether the numbers of entries keep the limits."""
        counts = [board.entries for board in self.boards]
        return max(counts) <= ENTRIES and sum(max(SURE, count) for count in counts) <= SHEET

    def limit(self, k):
        """The entries that foil k may have."""
        return min(ENTRIES, SHEET - sum(max(SURE, b.entries) for i, b in enumerate(self.boards) if i != k))

    def foil(self, k):
        """Foil k, refused by 13 if it is no foil's state."""
        board = self.boards[k]
        foil = Foil(*board[:4], self.rows[k])
        refuse(13, not (1 <= foil.w <= 4096 and 1 <= foil.h <= 4096 and foil.half <= 7 and foil.gap <= 15))
        refuse(13, not all(map(foil.holds, foil.row)))
        refuse(13, any(foil.crosses(patch, leg) for patch in foil.row for leg in foil.row))
        refuse(13, self.strips[k] != foil.strips() or board.strips != len(self.strips[k]) or not self.zeros[k])
        return foil

    def put(self, k, foil):
        """Puts foil k down."""
        strips = foil.strips()
        self.boards[k] = Board(*foil[:4], len(foil.row), len(strips))
        self.rows[k], self.strips[k], self.zeros[k] = foil.row, strips, True

    def same(self, sheet):
        """Whether a sheet holds this."""
        other = Held(sheet)
        return self.boards == other.boards and self.rows == other.rows and self.strips == other.strips


class Calls:
    """The calls on foil k of what a sheet holds. Each answers what the library should, and puts what it leaves."""

    def __init__(self, held, k):
        self.held, self.k = held, k

    def begin(self, reads=True):
        """What every call is refused by first; then the foil."""
        refuse(23, self.k > 7)
        refuse(13, not self.held.counts_fit())
        return self.held.foil(self.k) if reads else None

    def keep(self, foil, row):
        """Takes a row over."""
        refuse(10, len(row) > self.held.limit(self.k))
        self.held.put(self.k, foil._replace(row=tuple(row)))

    def new(self, w, h, half, gap):
        self.begin(reads=False)
        refuse(1, not (1 <= w <= 4096 and 1 <= h <= 4096))
        refuse(20, half > 7 or gap > 15)
        self.held.put(self.k, Foil(w, h, half, gap, ()))

    def draw(self, x0, y0, x1, y1):
        foil, patch = self.begin(), (0, x0, y0, x1, y1)
        refuse(3, not foil.holds(patch))
        refuse(21, any(foil.crosses(patch, entry) for entry in foil.row))
        self.keep(foil, foil.row + (patch,))

    def put_leg(self, *leg):
        foil = self.begin()
        refuse(4, not 1 <= leg[0] <= 999)
        refuse(3, not foil.holds(leg))
        refuse(21, any(foil.crosses(entry, leg) for entry in foil.row))
        self.keep(foil, foil.row + (leg,))

    def lift(self, net):
        foil = self.begin()
        refuse(4, not 1 <= net <= 999)
        refuse(6, net not in foil.nets())
        self.keep(foil, [entry for entry in foil.row if entry[0] != net])

    def find(self, start, end):
        foil = self.begin()
        refuse(7, any(x >= foil.w or y >= foil.h for x, y in (start, end)))
        free = foil.free()
        refuse(8, start not in free or end not in free)
        corners = first_path(free, start, {end})
        refuse(9, corners is None)
        return corners

    def lay(self, net, start, end):
        foil = self.begin()
        refuse(4, not 1 <= net <= 999)
        refuse(5, net in foil.nets())
        corners = self.find(start, end)
        self.keep(foil, foil.row + legs_of(net, corners))
        return corners

    def lay_list(self, wishes):
        refuse(23, self.k > 7)
        refuse(12, len(wishes) > 40)
        self.begin()
        told = []
        for wish in wishes:
            try:
                told.append((0, self.lay(*wish)))
            except Refused as refused:
                told.append((refused.number, ()))
        return told

    def join(self, net, point):
        foil = self.begin()
        refuse(4, not 1 <= net <= 999)
        refuse(6, net not in foil.nets())
        refuse(7, point[0] >= foil.w or point[1] >= foil.h)
        free = foil._replace(row=tuple(entry for entry in foil.row if entry[0] != net)).free()
        refuse(8, point not in free)
        ends = {(x, y) for e in foil.row if e[0] == net for x in range(e[1], e[3]) for y in range(e[2], e[4])} & free
        corners = first_path(free, point, ends)
        refuse(9, corners is None)
        self.keep(foil, foil.row + legs_of(net, corners))
        return corners

    def book(self, net, corners):
        foil = self.begin()
        refuse(4, not 1 <= net <= 999)
        refuse(5, net in foil.nets())
        refuse(19, not is_way(foil.free(), corners))
        self.keep(foil, foil.row + legs_of(net, corners))
        return tuple(corners)

    def look_up(self, point):
        foil, (x, y) = self.begin(), point
        refuse(7, x >= foil.w or y >= foil.h)
        for place, (x0, y0, x1, y1) in enumerate(foil.strips()):
            if x0 <= x < x1 and y0 <= y < y1:
                return place
        raise Refused(8)

    def save(self):
        foil = self.begin()
        rows = [(0x21, foil.w, foil.h, 0, foil.half, foil.gap)]
        rows += [(0x10, *entry) if entry[0] else (0x02, *entry[1:]) for entry in foil.row]
        return b"".join(bytes([row[0]]) + b"".join(n.to_bytes(2, "little") for n in row[1:]) for row in rows) + b"\0"

    def slip(self):
        foil, lines = self.begin(), []
        for net in foil.nets():
            row = [entry for entry in foil.row if entry[0] == net]
            steps = sum(x1 - x0 + y1 - y0 - 2 for _, x0, y0, x1, y1 in row)
            lines.append("%3d  %3d  %6d  %4d  %4d    \n" % (net, len(row), steps, row[0][1], row[0][2]))
        return "".join(lines).encode()

    def ohms(self, net, ink):
        foil, (square, width, bend) = self.begin(), ink
        refuse(4, not 1 <= net <= 999)
        refuse(6, net not in foil.nets())
        refuse(22, not (0 < square <= 1000 and 1 <= width <= 64 and 0 <= bend <= 4))
        row = [entry for entry in foil.row if entry[0] == net]
        steps = sum(x1 - x0 + y1 - y0 - 2 for _, x0, y0, x1, y1 in row)
        return (float(steps) / width + bend * (len(row) - 1)) * square
