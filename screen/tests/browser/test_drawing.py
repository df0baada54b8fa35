"""What is drawn: each sample as its lines have it, point by point; a foil of 128 entries."""
from desk import lines, textform
from screen.tests import given
from screen.tests.browser import browsing, expected
from screen.tests.browser.browsing import ENTER, ESCAPE

# a window in which a point of every sample is six pixels or more
WIDE, HIGH = 2100, 1800


class Drawn(browsing.Seen):
    def setUp(self):
        super().setUp()
        self.browser.driver.set_window_size(WIDE, HIGH)

    def assert_listed(self, foil):
        """The list of tracks for screen readers has these nets."""
        listed = self.tab.js("return Object.fromEntries([...document.querySelectorAll('#drawn [data-net]')].map(item =>"
                             " [item.dataset.net, [item.dataset.corners, item.dataset.legs]]))")
        self.assertEqual(sorted(map(int, listed)), sorted(foil.legs))
        for net, (corners, legs) in listed.items():
            self.assertEqual(sorted(legs.split()), sorted(",".join(map(str, leg)) for leg in foil.legs[int(net)]))
            if int(net) in foil.corners:
                self.assertEqual(corners, " ".join("%d,%d" % tuple(at) for at in foil.corners[int(net)]))

    def test_each_sample_is_drawn_as_its_lines_have_it(self):
        samples = sorted(given.SAMPLES.glob("*.txt"))
        self.assertGreater(len(samples), 10)
        for path in samples:
            with self.subTest(path.stem):
                text = path.read_text(encoding="utf-8")
                written = path.with_suffix(".out").read_text(encoding="ascii")
                foil = expected.by_lines(text, written)
                self.begin(text)
                run = lines.run_of(textform.read(text).job, written)
                self.assertEqual(self.tab.js("return screenState.foil.rows.filter(row => row.refused).length"),
                                 len(run.refused) + bool(run.fault))
                self.assertEqual(self.tab.complaints(), [])
                if foil is None:
                    self.assertFalse(any(self.tab.shown("drawn").values()))
                    self.assertIn("There is no foil", self.tab.words("nothing"))
                    continue
                if foil.strips:
                    self.assertEqual(self.tab.shown("drawn")["strips"], foil.strips)
                self.assertEqual(self.tab.shown("drawn")["patches"], [list(box) for box in foil.patches])
                self.assert_listed(foil)
                self.tab.bare()
                self.assert_drawn(foil)


class Full(browsing.Seen):
    # patches on a foil of 40 by 40 points: none touches another
    BOXES = [[2 * (at % 16), 2 * (at // 16), 2 * (at % 16) + 1, 2 * (at // 16) + 1] for at in range(128)]

    def told(self):
        """What the tab of foil 0 says."""
        return self.tab.js("return document.querySelector('#foils [data-foil=\"0\"] small').textContent")

    def test_128_entries(self):
        rows = ["patch %d %d %d %d" % tuple(box) for box in self.BOXES[:-1]]
        self.tab.type_text("\n".join(["board 40 40 0", *rows, "end", ""]))
        self.assertEqual(self.told(), "127 / 1 more")
        last = self.BOXES[-1][:2]
        self.tab.keys(ESCAPE, ".", *"%d %d" % tuple(last), ENTER).keys("p", ENTER, ENTER)
        self.assertEqual(self.told(), "128 / 0 more")
        self.assertEqual(self.tab.shown("drawn")["patches"], self.BOXES)
        self.assertEqual(len(self.tab.js("return [...document.querySelectorAll('#keys [data-box]')]")), 128)
        before = self.tab.text, self.tab.image(), self.job()
        self.tab.hold("patch").drag((35, 35), (36, 36))
        self.assertIn("refused (10)", self.tab.words("said"))
        self.assertEqual((self.tab.text, self.tab.image(), self.job()), before)
        self.tab.hold("lay").click((33, 33)).move((38, 38))
        self.assertIn("refused (10)", self.tab.words("preview"))
        self.tab.click((38, 38))
        self.assertIn("refused (10)", self.tab.words("said"))
        self.assertEqual((self.tab.text, self.tab.image(), self.job()), before)
        self.tab.keys(ESCAPE).with_ctrl("z")
        self.assertEqual(self.told(), "127 / 1 more")
        self.assertEqual(self.tab.shown("drawn")["patches"], self.BOXES[:-1])

    def test_eight_foils(self):
        for k in range(8):
            self.page.state()
            self.have("board 40 40 0\n%send\n" % "".join("patch %d %d %d %d\n" % tuple(box)
                                                         for box in self.BOXES[:70 if k < 4 else 32 + k]), k)
        self.tab.driver.refresh()
        self.tab.idle()
        # no foil is below the 32 that each is sure of, so that what is left of 512 may go to any of them
        counts = [70] * 4 + [36, 37, 38, 39]
        left = 512 - sum(counts)
        told = self.tab.js("return [...document.querySelectorAll('#foils small')].map(one => one.textContent)")
        self.assertEqual(told, ["%d / %d more" % (count, min(128 - count, left)) for count in counts])
        for k in (5, 2, 7):
            self.tab.press_button("#foils [data-foil='%d']" % k).idle()
            self.assertEqual(self.tab.shown("drawn")["patches"], self.BOXES[:counts[k]])
