"""What blocks a point of a foil, by the rule of the router: a patch up to half + gap away, a leg up to 2 half + gap,
and the edge where fewer than half + gap points lie between. It names what is in the way where the proved program has
refused something, and colours zones of the picture; whether a point is free is for the program to say."""
from desk.boxes import area, common, widened


def reach(net, pen):
    """How far an entry blocks: that of a net, or a patch, which is net 0."""
    half, gap = pen
    return (2 * half if net else half) + gap


def is_near(box, entry, pen):
    """Whether an entry blocks a point of a box."""
    return area(common(box, widened(entry.box, reach(entry.net, pen)))) > 0


def past_edge(box, size, pen):
    """Whether the edge blocks a point of a box."""
    return widened(box, sum(pen)) != common(widened(box, sum(pen)), (0, 0, *size))


def crossed(box, patch, table, pen):
    """The entries that stand against a patch or a leg by 21: for a patch the legs that it would block, for a leg the
    patches that block it."""
    if patch:
        return [entry for entry in table if entry.net and area(common(entry.box, widened(box, reach(0, pen))))]
    return [entry for entry in table if not entry.net and is_near(box, entry, pen)]


def point_box(point):
    """A point as a box."""
    x, y = point
    return (x, y, x + 1, y + 1)
