"""Boxes and lines. A box is x0, y0, x1, y1, with the ends excluded where its unit is a point of the foil."""


def area(box):
    """A box's area, 0 where it is empty."""
    return max(box[2] - box[0], 0) * max(box[3] - box[1], 0)


def common(a, b):
    """What two boxes have in common; it may be empty."""
    return (max(a[0], b[0]), max(a[1], b[1]), min(a[2], b[2]), min(a[3], b[3]))


def widened(box, by):
    """A box that is wider on every side."""
    x0, y0, x1, y1 = box
    return (x0 - by, y0 - by, x1 + by, y1 + by)


def frame_of(box, wide):
    """The boxes of what is nearer than so much to a box's sides, all inside it: above, below, left and right; or the
    box itself, where that is all of it."""
    x0, y0, x1, y1 = box
    left, top, right, bottom = widened(box, -wide)
    if left >= right or top >= bottom:
        return [box]
    return [(x0, y0, x1, top), (x0, bottom, x1, y1), (x0, top, left, bottom), (right, top, x1, bottom)]


def inside(box, frame):
    """Whether a box is inside another."""
    return common(box, frame) == tuple(box)


def apart(a, b):
    """How many points lie between two boxes, in the direction in which there are more; 0 where they meet."""
    return max(a[0] - b[2], b[0] - a[2], a[1] - b[3], b[1] - a[3], 0)


def cut(start, end, frame):
    """The part of a line that is inside a box: its two ends, or none. `first` and `last` are the shares of the line at
    which it begins and ends."""
    first, last = 0, 1
    for axis in (0, 1):
        way = end[axis] - start[axis]
        for side, limit in ((-1, frame[axis]), (1, frame[axis + 2])):
            outwards, room = side * way, side * (limit - start[axis])
            if outwards > 0:
                last = min(last, room / outwards)
            elif outwards < 0:
                first = max(first, room / outwards)
            elif room < 0:
                return None
    if first > last:
        return None
    (x0, y0), (x1, y1) = start, end
    return tuple((x0 + at * (x1 - x0), y0 + at * (y1 - y0)) for at in (first, last))
