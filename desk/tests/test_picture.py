"""The picture: well formed, one path a track, ink of its true width, and labels that do not cover each other."""
import unittest
import xml.etree.ElementTree as ET

from desk import boxes, foils, labels, lines, names, picture, program, refusals, textform
from desk.tests import given

TABLE = refusals.readme_table()
SVG = "{http://www.w3.org/2000/svg}"


def foil_by(text, written):
    """The foil of a text whose job writes these lines."""
    made = textform.read(text).job
    return foils.foil_of(lines.run_of(made, written))


def drawn(foil, strips=False, name="a foil"):
    """The picture of a foil, read back."""
    return ET.fromstring(picture.picture(foil, name, strips, TABLE))


def elements(root, tag, kind=None):
    """The elements of a tag, and of a class where one is given."""
    return [element for element in root.iter(SVG + tag) if kind is None or element.get("class") == kind]


def title(element):
    """What a browser shows of an element under the pointer."""
    return element.find(SVG + "title").text


PEN = foil_by("board 60 40 pen 2 1\npatch 30 10 40 20\ntrack 7 5 5 20 30\ntrack 8 0 0 50 30\ntrack 9 70 5 50 30\nend\n",
              "board 0\npatch 0\ntrack 7 0 1 5,5 20,5 20,30\ntrack 8 8\ntrack 9 7\nstrip 3 9 16 37\n")


class Tracks(unittest.TestCase):
    def test_one_path_a_track(self):
        for name in given.NAMES:
            foil = foils.foil_of(given.run_of(name))
            if foil:
                with self.subTest(name):
                    self.assertEqual(len(elements(drawn(foil), "path")), len(foil.nets))

    def test_the_foil_that_a_job_leaves(self):
        text = "board 9 9 0\ntrack 1 0 0 2 0\nlift 1\ntrack 2 0 0 0 0\nleg 3 5 0 6 9\nleg 3 5 8 9 9\n"
        text += "patch 0 0 0 0\nend\n"
        written = "board 0\ntrack 1 0 0 0,0 2,0\nlift 1 0\ntrack 2 0 0 0,0\nleg 3 0\nleg 3 0\npatch 3\n"
        foil = foil_by(text, written)
        point = foils.Net(2, [(0, 0, 1, 1)], 0, 0, ((0, 0), (0, 0)))
        self.assertEqual(foil.nets, [point, foils.Net(3, [(5, 0, 6, 9), (5, 8, 9, 9)], 1, 11, None)])
        self.assertEqual(foil.patches, [])

    def test_no_foil_is_begun(self):
        for name in ("board-size", "board-clearance", "too-long"):
            self.assertIsNone(foils.foil_of(given.run_of(name)))

    def test_ink_is_as_wide_as_the_pen(self):
        path, = elements(drawn(PEN), "path")
        self.assertEqual(path.get("d"), "M3 3H23V8H3ZM18 3H23V33H18Z")
        self.assertEqual(path.get("stroke-width"), "0")

    def test_ink_of_a_large_foil_can_be_seen(self):
        foil = foil_by("board 4096 4096 0\ntrack 1 0 0 4095 0\nend\n", "board 0\ntrack 1 0 0 0,0 4095,0\n")
        root = drawn(foil)
        path, = elements(root, "path")
        scale = picture.Picture(foil, "", False, TABLE).scale
        self.assertAlmostEqual((1 + float(path.get("stroke-width"))) * scale, picture.THINNEST, 2)
        self.assertIn("ink is drawn wider than it is", [text.text for text in elements(root, "text")])

    def test_a_track_of_one_point_is_a_dot(self):
        text = "board 4096 4096 0\ntrack 1 9 9 9 9\ntrack 2 0 0 4095 0\nend\n"
        foil = foil_by(text, "board 0\ntrack 1 0 0 9,9\ntrack 2 0 0 0,0 4095,0\n")
        scale = picture.Picture(foil, "", False, TABLE).scale
        wide = [(1 + float(path.get("stroke-width"))) * scale for path in elements(drawn(foil), "path")]
        for drawn_wide, least in zip(wide, (picture.DOT, picture.THINNEST)):
            self.assertAlmostEqual(drawn_wide, least, 2)

    def test_titles(self):
        root = drawn(PEN)
        self.assertEqual(title(elements(root, "path")[0]), "net 7: 1 bend, length 40, from 5,5 to 20,30")
        self.assertEqual(title(elements(root, "rect", "patch")[0]), "patch 30 10 40 20")
        self.assertIn("points nearer than 3 to the edge", title(elements(root, "rect", "edge")[0]))


class Ground(unittest.TestCase):
    def box(self, element):
        x, y, wide, high = (float(element.get(name)) for name in ("x", "y", "width", "height"))
        return (x, y, x + wide, y + high)

    def test_zones(self):
        root = drawn(PEN)
        self.assertEqual([self.box(rect) for rect in elements(root, "rect", "sheet")], [(0, 0, 60, 40)])
        *edge, _ = [self.box(rect) for rect in elements(root, "rect", "edge")]
        self.assertEqual(edge, [(0, 0, 60, 3), (0, 37, 60, 40), (0, 3, 3, 37), (57, 3, 60, 37)])
        *zones, _ = [self.box(rect) for rect in elements(root, "rect", "clearance")]
        self.assertEqual(zones, [(29, 9, 41, 21), (2, 2, 24, 9), (17, 2, 24, 34)])

    def test_where_no_middle_may_lie(self):
        root = drawn(PEN)
        *zones, _ = [self.box(rect) for rect in elements(root, "rect", "kept")]
        self.assertEqual(zones, [(27, 7, 43, 23), (0, 0, 26, 11), (15, 0, 26, 36)])
        self.assertIn("no track's middle: 3 points around a patch, 5 points around a track",
                      [text.text for text in elements(root, "text")])
        drawn_in = [element.get("class") for element in root.iter(SVG + "rect")]
        self.assertLess(drawn_in.index("kept"), drawn_in.index("clearance"))
        for name in ("reader-keys", "document-01"):
            self.assertEqual(elements(drawn(foils.foil_of(given.run_of(name))), "rect", "kept"), [])

    def test_no_point_is_left_by_the_edge(self):
        for size, edges in (("5 40 3", 1), ("6 40 3", 1), ("7 40 3", 4), ("9 9 0", 0)):
            root = drawn(foil_by("board %s\nend\n" % size, "board 0\n"))
            self.assertEqual(len(root.findall("%sg/%srect[@class='edge']" % (SVG, SVG))), edges + (edges > 0), size)

    def test_the_outline_is_just_outside(self):
        outline, = elements(drawn(PEN), "rect", "outline")
        x0, y0, x1, y1 = self.box(outline)
        half = float(outline.get("stroke-width")) / 2
        for inner, side in ((x0 + half, 0), (y0 + half, 0), (x1 - half, 60), (y1 - half, 40)):
            self.assertAlmostEqual(inner, side, 2)

    def test_strips_on_demand(self):
        strip, sample = elements(drawn(PEN, strips=True), "rect", "strip")
        self.assertEqual((self.box(strip), title(strip)), ((3, 9, 16, 37), "strip 0: 3 9 16 37"))
        self.assertEqual(elements(drawn(PEN), "rect", "strip"), [])

    def test_rulers(self):
        for scale, step in ((48, 1), (20, 2), (8, 5), (4, 10), (2, 20), (1, 50), (0.2, 200), (0.15, 500)):
            self.assertEqual(picture.ruler_step(scale), step)

    def test_it_fits_a_page(self):
        for size in ("1 1 0", "6 4 0", "4096 4096 15", "4096 1 0", "1 4096 0", "200 300 2"):
            root = drawn(foil_by("board %s\nend\n" % size, "board 0\n"))
            self.assertLessEqual(float(root.get("width")), picture.WIDE)
            self.assertLessEqual(float(root.get("height")), picture.HIGH)

    def test_names_are_written_as_they_must_be(self):
        root = drawn(PEN, name="a<b>&\"c\x01\udc80" + "x" * 300)
        self.assertTrue(elements(root, "text", "head")[0].text.startswith("a<b>&\"cxxx"))


class Refused(unittest.TestCase):
    def test_dashed_lines_with_their_numbers(self):
        root = drawn(PEN)
        dashed = [line for line in elements(root, "line", "refused") if "stroke-dasharray" in line.keys()]
        self.assertEqual(len(dashed), 3)
        titles = [title(group) for group in elements(root, "g") if group.find(SVG + "title") is not None]
        self.assertEqual(titles, ["track 8 from 0,0 to 50,30 refused (8): " + TABLE[8][0],
                                  "track 9 from 70,5 to 50,30 refused (7): " + TABLE[7][0]])
        self.assertLessEqual({"7", "8 (8)", "9 (7)"}, {text.text for text in elements(root, "text", "label")})

    def test_what_is_far_off_is_told(self):
        text = "board 9 9 0\n" + "".join("track %d 900 900 905 905\n" % net for net in range(1, 10)) + "end\n"
        root = drawn(foil_by(text, "board 0\n" + "".join("track %d 7\n" % net for net in range(1, 10))))
        self.assertEqual(elements(root, "line", "refused"), [])
        told = [text.text for text in elements(root, "text")]
        self.assertIn("not in the picture: 1 (7), 2 (7), 3 (7), 4 (7), 5 (7), 6 (7) and 3 more", told)

    def test_lines_are_cut_at_a_frame(self):
        frame = (0, 0, 10, 10)
        self.assertEqual(boxes.cut((2, 2), (8, 5), frame), ((2, 2), (8, 5)))
        self.assertEqual(boxes.cut((-5, 5), (15, 5), frame), ((0, 5), (10, 5)))
        self.assertEqual(boxes.cut((5, 20), (5, 5), frame), ((5, 10), (5, 5)))
        self.assertEqual(boxes.cut((3, 3), (3, 3), frame), ((3, 3), (3, 3)))
        for start, end in (((11, 0), (20, 9)), ((-1, 5), (-1, 6)), ((-3, 9), (3, 15)), ((12, 12), (12, 12))):
            self.assertIsNone(boxes.cut(start, end, frame))


class Many(unittest.TestCase):
    """Where dozens of steps are refused."""

    def picture_of(self, many):
        """A foil with a track, and so many that were refused across it."""
        tracks = [(net, net % 3, 59 - net % 3) for net in range(1, many + 1)]
        text = "board 60 60 0\ntrack 999 0 30 59 30\n" + "".join("track %d %d 0 %d 59\n" % track for track in tracks)
        told = "board 0\ntrack 999 0 0 0,30 59,30\n" + "".join("track %d 9\n" % net for net, _, _ in tracks)
        return drawn(foil_by(text + "end\n", told))

    def order(self, root):
        """The classes of lines and paths as they are drawn, each where it comes first."""
        every = [element.get("class") for element in root.find(SVG + "g").iter()]
        return [kind for kind in dict.fromkeys(every) if kind in ("c0", "halo", "refused", "dim")]

    def test_a_few_lie_over_the_tracks_with_a_halo(self):
        root = self.picture_of(picture.MANY)
        self.assertEqual(self.order(root), ["c0", "halo", "refused"])
        self.assertEqual(len(elements(root, "text", "label")), 1 + picture.MANY)

    def test_many_are_dim_and_lie_under_the_tracks(self):
        root, many = self.picture_of(picture.DRAWN), picture.DRAWN
        self.assertEqual(self.order(root), ["dim", "c0"])
        self.assertEqual(len(elements(root, "line", "dim")), many + 1)
        labelled = len(elements(root, "text", "faint"))
        self.assertTrue(0 < labelled < many)
        self.assertIn("without a label: %d refused steps" % (many - labelled), [e.text for e in elements(root, "text")])
        self.assertEqual([text.text for text in elements(root, "text", "label")], ["999"])

    def test_no_more_are_drawn_than_can_be_seen(self):
        root = self.picture_of(picture.DRAWN + 40)
        self.assertEqual(len(elements(root, "line", "dim")), picture.DRAWN + 1)
        self.assertIn("not in the picture: 201 (9), 202 (9), 203 (9), 204 (9), 205 (9), 206 (9) and 34 more",
                      [text.text for text in elements(root, "text")])

    def test_tracks_that_were_laid_later_are_not_drawn(self):
        for name in ("window", "reader-relaid", "wide-pen"):
            root = drawn(foils.foil_of(given.run_of(name)))
            self.assertEqual(elements(root, "line", "refused") + elements(root, "line", "dim"), [])
            self.assertNotIn("refused", elements(root, "text")[1].text)

    def test_refused_patches_and_legs_are_drawn(self):
        text = "board 20 20 0\npatch 2 2 4 30\npatch 9 9 5 5\npatch 7 7 7 8\nleg 3 1 1 2 5\npatch 300 300 310 310\n"
        foil = foil_by(text + "end\n", "board 0\npatch 3\npatch 3\npatch 3\nleg 3 21\npatch 3\n")
        root, pixel = drawn(foil), 1 / picture.Picture(foil, "", False, TABLE).scale
        *seen, _ = elements(root, "rect", "missing")
        at = [[float(box.get(name)) for name in ("x", "y", "width", "height")] for box in seen]
        right = [[2, 2, 2, 18 + (picture.RIGHT - 8) * pixel], [5, 5, 4, 4], [7, 7, pixel, 1], [1, 1, 1, 4]]
        self.assertEqual([[round(number, 2) for number in box] for box in at],
                         [[round(number, 2) for number in box] for box in right])
        self.assertEqual(title(seen[3]), "leg 3 1 1 2 5 refused (21): " + TABLE[21].says)
        told = [text.text for text in elements(root, "text")]
        self.assertIn("20 by 20 points, reach 0; no patches, no tracks, 5 refused", told)
        self.assertIn("not in the picture: patch (3)", told)
        self.assertLessEqual({"patch (3)", "leg 3 (21)"}, set(told))


class Labels(unittest.TestCase):
    def covered(self, foil):
        """How many pairs of labels cover each other."""
        at = []
        for text in elements(drawn(foil), "text", "label"):
            wish = labels.Wish(text.text, picture.WIDE_TEXT * len(text.text), picture.HIGH_TEXT, [], [])
            at.append(wish.box(labels.Place(float(text.get("x")), float(text.get("y")), 0)))
        return sum(boxes.area(boxes.common(a, b)) > 0.1 for k, a in enumerate(at) for b in at[:k])

    def test_labels_of_the_samples(self):
        for name in given.NAMES:
            foil = foils.foil_of(given.run_of(name))
            if foil:
                with self.subTest(name):
                    self.assertEqual(self.covered(foil), 0)

    def test_labels_of_128_tracks(self):
        spots = [(net, 3 + 5 * (net % 12), 2 + 5 * (net // 12)) for net in range(1, 129)]
        steps = "".join("track %d %d %d %d %d\n" % (net, x, y, x + 1, y) for net, x, y in spots)
        told = "".join("track %d 0 0 %d,%d %d,%d\n" % (net, x, y, x + 1, y) for net, x, y in spots)
        foil = foil_by("board 64 60 0\n" + steps + "end\n", "board 0\n" + told)
        self.assertEqual(len(elements(drawn(foil), "path")), 128)
        self.assertEqual(self.covered(foil), 0)

    def test_a_label_does_not_cover_a_small_patch(self):
        places = [labels.Place(0, 0, 0), labels.Place(20, 0, 0.1)]
        wish = labels.Wish("1", 10, 10, places, [])
        for patch, right in (((-2, -2, 2, 2), places[1]), ((-40, -40, 40, 40), places[0])):
            self.assertEqual(labels.placed([wish], (-50, -50, 50, 50), [patch]), [(wish, right)])

    def test_a_label_takes_the_next_place(self):
        places = [labels.Place(0, 0, 0), labels.Place(20, 0, 0.1)]
        wishes = [labels.Wish("1", 10, 10, places, []), labels.Wish("2", 10, 10, places, [])]
        self.assertEqual(labels.placed(wishes, (-50, -50, 50, 50), []), list(zip(wishes, places)))
        self.assertEqual(labels.placed(wishes[:1], (5, -50, 50, 50), []), [(wishes[0], places[1])])

    def test_a_label_without_room(self):
        there, place = labels.Wish("1", 10, 10, [labels.Place(0, 0, 0)], []), labels.Place(0, 0, 0)
        short = labels.Wish("s", 2, 2, [labels.Place(20, 0, 0)], [])
        frame = (-50, -50, 50, 50)
        for wish, right in ((there, (there, place)), (there._replace(left_out=True), None),
                            (there._replace(shorter=short), (short, short.places[0]))):
            made = labels.placed([there, wish], frame, [])
            self.assertEqual(made, [(there, place)] + ([right] if right else []))

    def test_names(self):
        text = "board 60 40 0\npatch 30 10 50 20 # key: Page on\npatch 0 0 9 9\ntrack 7 5 30 50 30 # net: To the pins\n"
        text += "track 8 5 34 5 34 # net: %s\nend\n" % ("very long " * 4)
        read = textform.read(text)
        run = lines.run_of(read.job, "board 0\npatch 0\npatch 0\ntrack 7 0 0 5,30 50,30\ntrack 8 0 0 5,34\n")
        root = drawn(foils.foil_of(run, names.names_of(read)))
        key, = elements(root, "text", "key")
        scale = float(root.find(SVG + "g").get("transform").split("scale(")[1].rstrip(")"))
        self.assertEqual(key.text, "Page on")
        self.assertAlmostEqual(float(key.get("x")), picture.LEFT + 40 * scale, 2)
        self.assertAlmostEqual(float(key.get("y")), picture.TOP + 15 * scale + 4, 2)
        self.assertEqual([text.text for text in elements(root, "text", "label")],
                         ["7 To the pins", "8 very long very l.."])
        self.assertEqual([title(patch) for patch in elements(root, "rect", "patch")[:2]],
                         ["patch 30 10 50 20: Page on", "patch 0 0 9 9"])
        self.assertEqual(title(elements(root, "path")[0]),
                         "net 7 (To the pins): no bends, length 45, from 5,30 to 50,30")


class InTheRepository(unittest.TestCase):
    def test_the_picture_of_readme_is_what_is_drawn(self):
        shown = picture.picture(foils.foil_of(given.run_of("less-ink")), "less-ink", False, TABLE)
        self.assertEqual((program.ROOT / "docs" / "less-ink.svg").read_text(encoding="utf-8"), shown)


if __name__ == "__main__":
    unittest.main()
