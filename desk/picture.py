"""The picture of a foil, as an SVG that stands alone.

A point (x, y) is the unit square from x, y to x + 1, y + 1, and y grows downwards. A track is the points of its legs
with the pen around them, 2 half + 1 points wide. The gap around all ink is a pale zone, and no other track's ink
comes into it. Where the pen is wider than a point, a second tone has what is blocked beyond that: no track's middle may
lie there. The edge zone has the points that the edge blocks, those nearer to it than half + gap. Each net has one
`path`, and nothing else is a path.

Of what was refused, tracks that are open and patches and legs that are not on the foil are shown. Where these are many,
they are dim, and lie under the tracks.

The page fits a printed one upright, and has colours of its own for a dark window."""
from desk import blocking, colours, labels, legend, svg, words
from desk.boxes import common, cut, frame_of, widened
from desk.refusals import refusal

# the largest page and the narrowest, the margins around the foil, the height of a legend, the widest that a point is
WIDE, HIGH, NARROW = 700, 960, 420
LEFT, RIGHT, TOP, BELOW = 44, 30, 78, 28
FOOT = 3 * legend.ROW
POINT = 48
# how high a label is, and how wide its characters; how many characters of a name there is room for
HIGH_TEXT, WIDE_TEXT, NAME = 11, 7.2, 60
# ink that is narrower cannot be seen, and is drawn as wide as this; so is a track that is shorter than a dot
THINNEST, DOT = 1.6, 3
# how wide the foil's outline is
OUTLINE = 1.4
# a refused track: its line, the halo around that, a broad unseen line for the pointer; and the ring at a point
LINE, HALO, NEAR, RING = 1.4, 3.6, 6, 3.5
# where so many are refused they are dim: the line and the ring of a track then, and how wide its label's characters are
MANY, THIN, SPOT, NARROW_TEXT = 10, 0.8, 2, 5.4
# how many refused tracks are drawn at most, and how many patches and legs
DRAWN = 200
# how many characters of a key's or a net's name there are in a label
NAMED = 18
# the least between two numbers of a ruler
APART = 36


def picture(foil, name, strips, table):
    """The picture of a foil as text; with its free strips on demand. `table` has the words of refusals."""
    made = Picture(foil, name, strips, table)
    made.draw_head()
    made.draw_rulers()
    made.draw_ground()
    made.draw_patches()
    for draw in (made.draw_refused, made.draw_tracks) if made.crowded else (made.draw_tracks, made.draw_refused):
        draw()
    made.draw_labels()
    made.draw_legend()
    return svg.written(made.svg)


def ruler_step(scale):
    """How many points there are between two numbers of a ruler: 1, 2 or 5 with zeros."""
    step = 1
    while step * scale < APART:
        step = step * 5 // 2 if str(step)[0] == "2" else step * 2
    return step


def head_of(foil):
    """A line on the foil: its size and pen, and how much is on it."""
    pen = "reach %d" % foil.gap if not foil.half else "pen of half width %d, gap %d" % (foil.half, foil.gap)
    patches, tracks = words.count(len(foil.patches), "patch", "es"), words.count(len(foil.nets), "track")
    many = len(set(foil.refused)) + len(set(foil.missing))
    refused = ", %d refused" % many if many else ""
    return "%d by %d points, %s; %s, %s%s" % (foil.width, foil.height, pen, patches, tracks, refused)


def net_title(net):
    """What a browser shows of a track under the pointer."""
    ends = ", from %d,%d to %d,%d" % (net.ends[0] + net.ends[1]) if net.ends else ""
    name = " (%s)" % net.name if net.name else ""
    return "net %d%s: %s, length %d%s" % (net.net, name, words.count(net.bends, "bend"), net.length, ends)


def refused_title(what, name, number, table):
    """What a browser shows of a step that was refused."""
    return "%s%s refused (%d): %s" % (what, " (%s)" % name if name else "", number, refusal(number, table).says)


def shortened(name):
    """A name as a label has it."""
    return name if len(name) <= NAMED else name[:NAMED - 2] + ".."


def middle(point):
    """The middle of a point's square."""
    return (point[0] + 0.5, point[1] + 0.5)


def dashed(element, pixel):
    """Makes a line or a box dashed; `pixel` is one pixel in its unit."""
    element.set("stroke-dasharray", "%s %s" % (svg.short(5 * pixel), svg.short(3 * pixel)))


class Picture:
    """A picture in the making: the foil, how large its points are, and a group of elements whose unit is a point."""

    def __init__(self, foil, name, strips, table):
        self.foil, self.table = foil, table
        self.strips = (foil.strips or []) if strips else []
        self.scale = min((WIDE - LEFT - RIGHT) / foil.width, (HIGH - TOP - BELOW - FOOT) / foil.height, POINT)
        self.name = "".join(letter for letter in name if letter.isprintable())[:NAME]
        self.head = head_of(foil)
        wide_head = LEFT + legend.CHARACTER * len(self.head)
        self.wide = max(LEFT + foil.width * self.scale + RIGHT, wide_head, NARROW)
        self.foot = TOP + foil.height * self.scale + BELOW
        tracks, boxes = list(dict.fromkeys(foil.refused)), list(dict.fromkeys(foil.missing))
        self.tracks = [(track, self.line_of(track) if at < DRAWN else None) for at, track in enumerate(tracks)]
        self.boxes = [(box, self.box_of(box) if at < DRAWN else None) for at, box in enumerate(boxes)]
        self.crowded = len(self.tracks) + len(self.boxes) > MANY
        self.seen = [(track, line) for track, line in self.tracks if line]
        self.labels = self.placed_labels()
        self.legend = legend.rows(legend.items(foil, self.strips, self.shown()), LEFT, self.wide)
        self.svg = svg.page(self.wide, self.foot + legend.ROW * len(self.legend) + 6, self.name)
        self.points = self.group(LEFT, TOP)

    def px(self, pixels):
        """So many pixels, in points."""
        return pixels / self.scale

    def group(self, x, y):
        """A group at a place of the page, whose unit is a point."""
        place = "translate(%s %s) scale(%.6g)" % (svg.short(x), svg.short(y), self.scale)
        return svg.put(self.svg, "g", transform=place)

    def on_page(self, box):
        """A box of points as it lies on the page."""
        x0, y0, x1, y1 = (number * self.scale for number in box)
        return (LEFT + x0, TOP + y0, LEFT + x1, TOP + y1)

    @property
    def whole(self):
        """The foil's box."""
        return (0, 0, self.foil.width, self.foil.height)

    def ink(self, net):
        """The boxes of a net's ink."""
        return [widened(leg, self.foil.half) for leg in net.legs]

    def thickening(self, net):
        """What is added to the width of a net's ink, in points, so that it can be seen."""
        longest = max(max(x1 - x0, y1 - y0) for x0, y0, x1, y1 in self.ink(net))
        return max(0, self.px(THINNEST) - (2 * self.foil.half + 1), self.px(DOT) - longest)

    def line_of(self, track):
        """The line of a refused track between the middles of its points, as far as there is room around the foil."""
        return cut(middle(track.start), middle(track.end), widened(self.whole, self.px(RIGHT - 8)))

    def box_of(self, missing):
        """The box of a refused patch or leg, whichever way round it was given, as far as there is room around the foil;
        none where that is nothing."""
        xs, ys = sorted(missing.box[::2]), sorted(missing.box[1::2])
        room = widened(self.whole, self.px(RIGHT - 8))
        x0, y0, x1, y1 = common((xs[0], ys[0], xs[1], ys[1]), room)
        return (x0, y0, max(x1, x0 + self.px(1)), max(y1, y0 + self.px(1))) if x0 <= x1 and y0 <= y1 else None

    def shown(self):
        """What the legend is to know of what was refused."""
        unseen = ["%d (%d)" % (track.net, track.number) for track, line in self.tracks if not line]
        unseen += ["%s (%d)" % (box.called, box.number) for box, at in self.boxes if not at]
        boxes = [box for box, at in self.boxes if at]
        labelled = [wish for wish, _ in self.labels if wish.kind == "faint"]
        without = len(self.seen) + len(boxes) - len(labelled) if self.crowded else 0
        return legend.Shown("dim" if self.crowded else "refused", len(self.seen), len(boxes), unseen, without,
                            any(self.thickening(net) for net in self.foil.nets))

    def ends_of(self, track, line):
        """The middles of a refused track's points that are in the picture."""
        return [end for end in line if end in (middle(track.start), middle(track.end))]

    def draw_head(self):
        """The name, and a line on the foil."""
        svg.put(self.svg, "text", self.name, x=LEFT, y=24, kind="head")
        svg.put(self.svg, "text", self.head, x=LEFT, y=42)

    def draw_rulers(self):
        """The numbers of points, at the top and on the left, with a tick at the middle of the point."""
        step = ruler_step(self.scale)
        for x in range(0, self.foil.width, step):
            at = LEFT + (x + 0.5) * self.scale
            svg.put(self.svg, "line", x1=at, y1=TOP - 7, x2=at, y2=TOP - 2, kind="tick")
            svg.put(self.svg, "text", str(x), x=at, y=TOP - 11, kind="tick-x")
        for y in range(0, self.foil.height, step):
            at = TOP + (y + 0.5) * self.scale
            svg.put(self.svg, "line", x1=LEFT - 7, y1=at, x2=LEFT - 2, y2=at, kind="tick")
            svg.put(self.svg, "text", str(y), x=LEFT - 11, y=at + 4, kind="tick-y")

    def draw_ground(self):
        """The foil in its outline, the zones around all that is on it, its edge zone, and its free strips."""
        foil = self.foil
        svg.put_box(self.points, self.whole, "sheet")
        entries = [(0, box, "a patch") for box in dict.fromkeys(foil.patches)]
        entries += [(net.net, leg, "net %d" % net.net) for net in foil.nets for leg in net.legs]
        for net, box, of in entries if foil.half else []:
            kept = common(widened(box, blocking.reach(net, (foil.half, foil.gap))), self.whole)
            svg.put_box(self.points, kept, "kept", "too near %s for the middle of a track" % of)
        inked = [(box, "a patch") for box in dict.fromkeys(foil.patches)]
        inked += [(box, "net %d" % net.net) for net in foil.nets for box in self.ink(net)]
        for box, of in inked if foil.gap else []:
            svg.put_box(self.points, common(widened(box, foil.gap), self.whole), "clearance", "clearance of " + of)
        self.draw_edge()
        for at, box in enumerate(self.strips):
            svg.put_box(self.points, box, "strip", "strip %d: %d %d %d %d" % (at, *box), stroke_width=self.px(0.8))
        svg.put_box(self.points, widened(self.whole, self.px(OUTLINE / 2)), "outline", stroke_width=self.px(OUTLINE))

    def draw_edge(self):
        """The edge zone, which is all of the foil where nothing is left inside it."""
        edge = self.foil.half + self.foil.gap
        if edge:
            svg.put_hatch(self.points, self.px(5), self.px(1.6))
            for box in frame_of(self.whole, edge):
                title = "edge zone: points nearer than %d to the edge are blocked" % edge
                svg.put_box(self.points, box, "edge", title)

    def draw_patches(self):
        """The patches."""
        for box in self.foil.patches:
            name = ": " + self.foil.keys[box] if box in self.foil.keys else ""
            svg.put_box(self.points, box, "patch", "patch %d %d %d %d" % box + name, stroke_width=self.px(1))

    def draw_tracks(self):
        """A path for each net: the boxes of its ink, all the way round in the same sense, so that they are one area."""
        for net, colour in zip(self.foil.nets, colours.assigned(self.foil.nets)):
            boxes = "".join("M%d %dH%dV%dH%dZ" % (x0, y0, x1, y1, x0) for x0, y0, x1, y1 in self.ink(net))
            wider = self.thickening(net)
            svg.put(self.points, "path", title=net_title(net), d=boxes, kind="c%d" % colour, stroke_width=wider)

    def draw_refused(self):
        """A dashed line for each refused track, as far as it is in the picture, and rings at its points that are; a
        dashed box for each patch and leg."""
        pens = [("dim", THIN)] if self.crowded else [("halo", HALO), ("refused", LINE)]
        for box, at in self.boxes:
            if at:
                title = refused_title("%s %d %d %d %d" % (box.called, *box.box), box.name, box.number, self.table)
                dashed(svg.put_box(self.points, at, "missing", title, stroke_width=self.px(LINE)), self.px(1))
        for track, line in self.seen:
            what = "track %d from %d,%d to %d,%d" % (track.net, *track.start, *track.end)
            group = svg.put(self.points, "g", title=refused_title(what, track.name, track.number, self.table))
            for kind, wide in [("near", NEAR)] + pens:
                self.put_line(group, kind, wide, *line)
            for x, y in self.ends_of(track, line):
                for kind, wide in pens:
                    svg.put(group, "circle", kind=kind, cx=x, cy=y, r=self.px(SPOT if self.crowded else RING),
                            stroke_width=self.px(wide))

    def put_line(self, group, kind, wide, start, end):
        """A line, dashed where it is that of a refused track."""
        (x1, y1), (x2, y2) = start, end
        line = svg.put(group, "line", kind=kind, x1=x1, y1=y1, x2=x2, y2=y2, stroke_width=self.px(wide))
        if kind in ("refused", "dim"):
            dashed(line, self.px(1))

    def wishes(self):
        """The labels: of each key that has a name, of each net, and of what was refused with the number."""
        for box in dict.fromkeys(self.foil.patches):
            if box in self.foil.keys:
                text, at = shortened(self.foil.keys[box]), self.on_page(box)
                wide = WIDE_TEXT * len(text)
                yield labels.Wish(text, wide, HIGH_TEXT, labels.about(at, wide, HIGH_TEXT), [at], kind="key")
        for net in self.foil.nets:
            yield self.net_wish(net)
        kind, letter = ("faint", NARROW_TEXT) if self.crowded else ("label", WIDE_TEXT)
        for box, at in self.boxes:
            if at:
                text = "%s (%d)" % (box.called, box.number)
                wide, at = letter * len(text), self.on_page(at)
                places = labels.about(at, wide, HIGH_TEXT)
                yield labels.Wish(text, wide, HIGH_TEXT, places, [], kind=kind, left_out=self.crowded)
        for track, line in self.seen:
            text = "%d (%d)" % (track.net, track.number)
            wide = letter * len(text)
            start, end = (self.on_page(end + end)[:2] for end in line)
            rings = [widened(self.on_page(end + end), RING) for end in self.ends_of(track, line)]
            places = labels.on_line(start, end, wide, HIGH_TEXT)
            yield labels.Wish(text, wide, HIGH_TEXT, places, rings, kind=kind, left_out=self.crowded)

    def net_wish(self, net):
        """The label of a net: its number, with its name where there is room."""
        ink = [self.on_page(widened(box, self.thickening(net) / 2)) for box in self.ink(net)]

        def wish(text, **more):
            wide = WIDE_TEXT * len(text)
            places = labels.along(ink, wide, HIGH_TEXT)
            return labels.Wish(text, wide, HIGH_TEXT, places, ink, **more)

        number = wish(str(net.net))
        number = number._replace(point=(number.places[0].x, number.places[0].y))
        return wish("%d %s" % (net.net, shortened(net.name)), shorter=number) if net.name else number

    def placed_labels(self):
        """The labels with their places, where they cover each other least."""
        frame = (LEFT - 2, TOP - 2, self.wide - 2, self.foot - 2)
        patches = [self.on_page(box) for box in dict.fromkeys(self.foil.patches) if box not in self.foil.keys]
        return labels.placed(list(self.wishes()), frame, patches)

    def draw_labels(self):
        """The labels, and lines to those that are far off."""
        for wish, place in self.labels:
            if place.led:
                svg.put(self.svg, "line", x1=wish.point[0], y1=wish.point[1], x2=place.x, y2=place.y, kind="leader")
        for wish, place in self.labels:
            svg.put(self.svg, "text", wish.text, x=place.x, y=place.y + 4, kind=wish.kind)

    def draw_legend(self):
        """The legend under the foil."""
        for at, row in enumerate(self.legend):
            y = self.foot + legend.ROW * at
            for x, kind, text in row:
                sample = self.group(x, y)
                if kind in ("refused", "dim"):
                    wide = THIN if kind == "dim" else LINE
                    self.put_line(sample, kind, wide, (0, self.px(6)), (self.px(18), self.px(6)))
                elif kind == "missing":
                    box = svg.put_box(sample, (0, 0, self.px(18), self.px(12)), kind, stroke_width=self.px(LINE))
                    dashed(box, self.px(1))
                elif kind:
                    svg.put_box(sample, (0, 0, self.px(18), self.px(12)), kind, stroke_width=self.px(1))
                svg.put(self.svg, "text", text, x=x + (legend.SAMPLE if kind else 0), y=y + 10)
