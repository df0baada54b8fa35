"""Tools, by pointer and by keys: what was previewed is what a click lays, a refused step changes nothing, any number of
steps back give the same bytes, and a saved job gives what is shown."""
import random
import subprocess

from desk import textform
from screen.tests import given
from screen.tests.browser import browsing, expected
from screen.tests.browser.browsing import DOWN, ENTER, ESCAPE, RIGHT

# the colour of the middle of a way that is previewed, as Tab.picture has it
PREVIEWED = 0x006A4EFF

KEYS = "board 26 22 pen %d 1\npatch 5 4 9 8\npatch 15 4 19 8\npatch 10 13 14 16\nend\n"
LARGER = KEYS.replace("26 22", "40 30")


def track_line(net, start, end):
    """The line of a text that lays a track."""
    return "track %d %d %d %d %d" % (net, *start, *end)


class Clicks(browsing.Seen):
    def setUp(self):
        super().setUp()
        self.browser.driver.set_window_size(1300, 800)

    def free_point(self, strips, chance):
        """A free point."""
        x0, y0, x1, y1 = chance.choice(strips)
        return chance.randrange(x0, x1), chance.randrange(y0, y1)

    def near_free(self, strips, chance):
        """A point that is free more often than not."""
        return self.free_point(strips, chance) if strips and chance.random() < 0.8 else self.any_point(chance)

    def any_point(self, chance):
        """A point of the foil that is shown."""
        board = self.tab.shown("foil")["board"]
        return chance.randrange(board["width"]), chance.randrange(board["height"])


class Previews(Clicks):
    def previewed(self):
        """The points on which the middle of a previewed way is drawn."""
        return {(x, y) for y, row in enumerate(self.tab.picture("overlay", 0.5)) for x, colour in enumerate(row)
                if colour == PREVIEWED}

    def assert_way(self, seen, way):
        """A preview is the way that the library answered, in words and on the canvas."""
        corners = [list(corner) for corner in way.corners]
        self.assertEqual((seen["refused"], seen["corners"]), (False, corners))
        self.assertEqual(self.tab.words("preview"), seen["words"])
        self.assertEqual(seen["words"], "%d bend%s, length %d" % (
            way.bends, "" if way.bends == 1 else "s", expected.length_of(way.corners)))
        self.assertEqual(self.previewed(), {(x, y) for x0, y0, x1, y1 in expected.legs_of(way.corners)
                                            for x in range(x0, x1) for y in range(y0, y1)})

    def test_what_was_previewed_is_what_the_click_lays(self):
        laid = turned = 0
        for half in (0, 1):
            text, chance = KEYS % half, random.Random(half)
            self.begin(text).hold("lay")
            for _ in range(9):
                foil = expected.by_library(text)
                start, end = self.free_point(foil.strips, chance), self.any_point(chance)
                net = 1 + max(foil.nets, default=0)
                self.tab.click(start).move(end)
                way, seen = foil.find(start, end), self.tab.shown("preview")
                with self.subTest((half, start, end)):
                    if way.accepted:
                        laid += 1
                        self.assertTrue(foil.lay(net, start, end).accepted)
                        self.assert_way(seen, way)
                        self.tab.click(end)
                        text = text.replace("end\n", track_line(net, start, end) + "\nend\n")
                        self.assertEqual(self.tab.text, text)
                        made = next(one for one in self.tab.shown("drawn")["tracks"] if one["net"] == net)
                        self.assertEqual(made["corners"], seen["corners"])
                    else:
                        turned += 1
                        self.assertTrue(seen["refused"])
                        self.assertIn("refused (%d)" % way.refusal, self.tab.words("preview"))
                        self.assertEqual(self.previewed(), set())
                        self.tab.click(end)
                        self.assertEqual(self.tab.text, text)
                        self.tab.keys(ESCAPE)
        self.assertGreater(min(laid, turned), 2)

    def test_a_way_by_hand_and_a_join(self):
        text = KEYS % 0
        self.begin(text).hold("way")
        for corner in ((2, 2), (2, 10), (20, 10)):
            self.tab.click(corner)
        self.assert_way(self.tab.shown("preview"), expected.by_library(text).book(1, ((2, 2), (2, 10), (20, 10))))
        self.tab.click((20, 10))
        text = text.replace("end\n", "leg 1 2 2 3 11\nleg 1 2 10 21 11\nend\n")
        self.assertEqual(textform.read(self.tab.text).job, textform.read(text).job)
        self.tab.hold("join").click((12, 10)).move((22, 18))
        foil = expected.by_library(text)
        seen, way = self.tab.shown("preview"), foil.join(1, (22, 18))
        self.assertEqual((seen["refused"], seen["corners"]), (False, [list(corner) for corner in way.corners]))
        self.tab.click((22, 18))
        made = next(one for one in self.tab.shown("drawn")["tracks"] if one["net"] == 1)
        self.assertEqual(sorted(made["legs"]), sorted([list(entry[1:]) for entry in foil.entries if entry.net == 1]))

    def test_the_nearest_free_point(self):
        text = KEYS % 0
        self.begin(text).hold("lay")
        self.tab.press_button("#snap").click((2, 2)).move((6, 5))
        foil = expected.by_library(text)
        seen = self.tab.shown("preview")
        free = {(x, y) for x0, y0, x1, y1 in foil.strips for x in range(x0, x1) for y in range(y0, y1)}
        near = min(abs(x - 6) + abs(y - 5) for x, y in free)
        x, y = seen["corners"][-1]
        self.assertIn((x, y), free)
        self.assertEqual(abs(x - 6) + abs(y - 5), near)
        self.assertEqual(seen["corners"], [list(corner) for corner in foil.find((2, 2), (x, y)).corners])
        self.tab.click((6, 5))
        self.assertIn(track_line(1, (2, 2), (x, y)), self.tab.text)

    def test_a_key_that_is_moved(self):
        text = KEYS.replace("end", "track 1 12 12 2 20\nend") % 0
        self.begin(text).hold("move")
        hand, (first, last) = self.tab.hand(), (self.tab.pixel((12, 14)), self.tab.pixel((17, 15)))
        hand.pointer_action.move_to_location(*first).pointer_down().move_to_location(*last)
        hand.perform()
        self.tab.idle()
        self.assertIn("key to 15 14 19 17", self.tab.words("preview"))
        self.assertEqual(self.tab.text, text)
        hand = self.tab.hand()
        hand.pointer_action.pointer_up()
        hand.perform()
        self.tab.idle()
        self.assertIn("patch 15 14 19 17", self.tab.text)
        foil = expected.by_library(self.tab.text)
        self.assertEqual([tuple(net["legs"][0]) for net in self.tab.shown("drawn")["tracks"]],
                         [entry[1:] for entry in foil.entries if entry.net][:1])
        self.assertEqual(self.tab.shown("drawn")["patches"],
                         [list(entry[1:]) for entry in foil.entries if not entry.net])


class Refused(Clicks):
    TEXT = "board 26 22 1\npatch 5 4 9 8\npatch 12 0 14 22\ntrack 1 2 2 2 18\ntrack 2 9 14 9 19\nend\n"

    def test_a_refused_step_changes_neither_text_nor_picture(self):
        self.begin(self.TEXT)
        tab = self.tab

        def lay(start, end, net=""):
            tab.js("document.getElementById('net').value = arguments[0]", net)
            tab.hold("lay").click(start).click(end)

        steps = (
            ("a way that is not there", 9, lambda: lay((5, 11), (20, 11))),
            ("an end on a patch", 8, lambda: lay((5, 11), (6, 6))),
            ("an end in the reach of a track", 8, lambda: lay((5, 11), (8, 16))),
            ("a net that is there", 5, lambda: lay((5, 11), (5, 16), "2")),
            ("a beginning on a patch", 8, lambda: tab.hold("lay").click((6, 6))),
            ("a patch on a track", 21, lambda: tab.hold("patch").drag((1, 9), (4, 11))),
            ("a key on a track", 21, lambda: tab.hold("move").drag((6, 6), (6, 14))),
            ("a point that cannot be joined", 9, lambda: tab.hold("join").click((2, 9)).click((20, 9))),
            ("a way by hand through a bar", None, lambda: tab.hold("way").click((5, 11)).click((20, 11)).keys("b")),
        )
        before = tab.text, tab.image(), self.job(), tab.shown("version")
        for what, number, step in steps:
            with self.subTest(what):
                step()
                self.assertIn("refused" if number is None else "refused (%d)" % number, tab.words("said"))
                self.assertTrue(tab.js("return document.getElementById('said').classList.contains('refused')"))
                tab.keys(ESCAPE)
                self.assertEqual((tab.text, tab.image(), self.job(), tab.shown("version")), before)

    def test_nothing_is_lifted_where_there_is_no_track(self):
        self.begin(self.TEXT)
        before = self.tab.text, self.tab.image(), self.job()
        self.tab.hold("lift").click((20, 11))
        self.assertIn("There is no track on 20,11", self.tab.words("said"))
        self.assertEqual((self.tab.text, self.tab.image(), self.job()), before)

    def test_a_line_that_cannot_be_read_leaves_the_drawing_dimmed(self):
        self.begin(self.TEXT)
        before = self.tab.image()
        self.tab.type_text(self.TEXT.replace("end\n", "trakc 3 1 1 2 2\nend\n"))
        self.assertTrue(self.tab.shown("behind"))
        self.assertEqual(self.tab.image(), before)
        self.tab.type_text(self.TEXT)
        self.assertFalse(self.tab.shown("behind"))
        self.assertEqual(self.tab.image(), before)


class Steps(Clicks):
    LAYING = ("lay", "lay", "lay", "lay", "way", "patch", "move", "join")

    def some_step(self, chance, tools=(*LAYING, "lift")):
        """A step by one of some tools, accepted or refused."""
        tool = chance.choice(tools)
        tab, drawn = self.tab.hold(tool), self.tab.shown("drawn")
        start, end = self.near_free(drawn["strips"], chance), self.near_free(drawn["strips"], chance)
        tracks, patches = drawn["tracks"], drawn["patches"]
        if tool in ("join", "lift") and tracks:
            start = chance.choice(chance.choice(tracks)["legs"])[:2]
        if tool == "move" and patches:
            start = chance.choice(patches)[:2]
        if tool == "patch":
            end = [start[0] + chance.randrange(2), start[1] + chance.randrange(2)]
            end = [min(value, most - 1) for value, most in zip(end, (40, 30))]
        if tool in ("patch", "move"):
            tab.drag(start, end)
        elif tool == "lift":
            tab.click(start)
        else:
            tab.click(start).click(end)
        if tool == "way":
            tab.keys("b")
        tab.keys(ESCAPE)

    def state(self):
        """The text that is seen, the picture, and the job's bytes."""
        return self.tab.text, self.tab.image(), self.job()

    def test_clicks_and_undos_give_the_same_bytes(self):
        for half in (0, 1):
            chance = random.Random(7 + half)
            self.begin(LARGER % half)
            states, at, done = [self.state()], 0, 0
            for _ in range(24):
                if at and chance.random() < 0.2:
                    self.tab.with_ctrl("z")
                    at -= 1
                    self.assertEqual(self.state(), states[at])
                    continue
                self.some_step(chance)
                now = self.state()
                self.assertEqual(now[2], textform.read(now[0]).job)
                if now[0] != states[at][0]:
                    at, done = at + 1, done + 1
                    states[at:] = [now]
                else:
                    self.assertEqual(now, states[at])
            self.assertGreater(done, 6)
            for back in range(at - 1, -1, -1):
                self.tab.with_ctrl("z")
                self.assertEqual(self.state(), states[back])
            for forth in range(1, at + 1):
                self.tab.with_ctrl("y")
                self.assertEqual(self.state(), states[forth])
            self.assertEqual(self.tab.complaints(), [])

    @given.with_job
    def test_the_saved_job_gives_what_is_shown(self):
        for half in (0, 1):
            chance, name = random.Random(half), "keys of pen %d" % half
            self.begin(LARGER % half)
            for _ in range(12):
                self.some_step(chance, self.LAYING)
            if half:
                self.tab.press_button("#save-as")
            else:
                self.tab.with_ctrl("s")
            self.tab.type_name(name)
            self.tab.wait("document.getElementById('said').textContent.startsWith('Saved: ')")
            job = (self.folder / "orders" / name / (name + ".job")).read_bytes()
            written = subprocess.run([given.JOB], input=job, stdout=subprocess.PIPE, check=True).stdout.decode("ascii")
            foil = expected.by_lines(textform.show(job), written)
            self.assertGreater(len(foil.legs), 1)
            self.assertEqual(self.tab.shown("drawn")["strips"], foil.strips)
            self.assertEqual(self.tab.shown("drawn")["patches"], [list(box) for box in foil.patches])
            self.tab.bare()
            self.assert_drawn(foil)

    def test_a_track_by_keys_alone(self):
        text = "board 12 9 0\nend\n"
        self.begin(text)
        self.tab.keys(".", *"2 3", ENTER).keys("t", ENTER, RIGHT, RIGHT, RIGHT, DOWN, DOWN)
        way = expected.by_library(text).find((2, 3), (5, 5))
        self.assertEqual(self.tab.shown("preview")["corners"], [list(corner) for corner in way.corners])
        self.tab.keys(ENTER)
        self.assertEqual(self.tab.text, "board 12 9 0\ntrack 1 2 3 5 5\nend\n")
        self.assertIn("Net 1 laid", self.tab.words("said"))


class Lines(Clicks):
    def test_a_line_marks_its_track_and_a_track_its_line(self):
        self.begin(given.sample("less-ink"))
        self.tab.click((4, 1))
        self.assertEqual((self.tab.shown("marked")["nets"], self.tab.shown("marked")["lines"]), ([1], [3]))
        self.tab.js("const area = document.getElementById('text'); area.focus();"
                    "area.setSelectionRange(0, 0)")
        self.tab.keys(DOWN)
        self.assertEqual(self.tab.shown("marked")["boxes"], [[4, 2, 5, 7]])
        self.tab.keys(DOWN)
        self.assertEqual(self.tab.shown("marked")["nets"], [1])

    def test_a_lift_that_opens_a_way(self):
        text = "board 9 9 0\ntrack 1 0 4 8 4\ntrack 2 4 0 4 8\nend\n"
        self.begin(text)
        found = self.tab.js("return [...document.querySelectorAll('#refusals [data-net]')].map(one => one.dataset.net)")
        self.assertEqual(found, ["2"])
        self.tab.js("[...document.querySelectorAll('#refusals button')].find(one => one.textContent === 'Which lift?')"
                    ".click()")
        self.tab.wait("document.querySelector('#refusals [data-lift=\"1\"]')")
        lifted = expected.by_library("board 9 9 0\nend\n").find((4, 0), (4, 8))
        self.assertIn("%d bends, length %d" % (lifted.bends, expected.length_of(lifted.corners)),
                      self.tab.words("refusals"))
