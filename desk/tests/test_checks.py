"""The check list: what is open, missing, short, too near, in parts or nearly full, and nothing where all is well."""
import unittest

from desk import checks, console, foils, lines, names, textform
from desk.tests import given


def foil_by(text, written):
    """The foil of a text whose job writes these lines."""
    read = textform.read(text)
    return foils.foil_of(lines.run_of(read.job, written), names.names_of(read))


def legs(board, *steps):
    """A foil of this board with these legs as they were booked."""
    text = "".join("leg %s\n" % step for step in steps)
    written = "".join("leg %s 0\n" % step.split()[0] for step in steps)
    return foil_by("board %s\n%send\n" % (board, text), "board 0\n" + written)


class CheckList(unittest.TestCase):
    def hold(self, foil, *right):
        self.assertEqual(["%s: %s" % finding for finding in checks.findings(foil)], list(right))

    def test_nothing_where_all_is_well(self):
        for name in ("document-01", "reader-keys", "reader-more"):
            foil = foils.foil_of(given.run_of(name))
            self.hold(foil)
            self.assertEqual(checks.page(foil, console.WIDTH), "")

    def test_tracks_that_were_laid_later_are_not_open(self):
        for name in ("window", "reader-relaid", "wide-pen"):
            self.hold(foils.foil_of(given.run_of(name)))
        self.hold(foils.foil_of(given.run_of("less-ink")), "open: net 2 from 1,5 to 7,3 (8)")

    def test_open_tracks(self):
        board = "board 9 9 0\n"
        for steps, written, right in (
                # refused, then laid, then lifted again
                ("track 1 0 0 8 8\ntrack 1 0 0 2 0\nlift 1\n", "track 1 9\ntrack 1 0 0 0,0 2,0\nlift 1 0\n",
                 ["open: net 1 from 0,0 to 8,8 (9)"]),
                # refused after it was laid: another track of that number
                ("track 1 0 0 2 0\ntrack 1 4 4 8 4\n", "track 1 0 0 0,0 2,0\ntrack 1 5\n",
                 ["open: net 1 from 4,4 to 8,4 (5)"]),
                # the other track of that number was laid again
                ("track 1 0 0 2 0\ntrack 1 4 4 8 4\nlift 1\ntrack 1 0 0 2 0\n",
                 "track 1 0 0 0,0 2,0\ntrack 1 5\nlift 1 0\ntrack 1 0 0 0,0 2,0\n",
                 ["open: net 1 from 4,4 to 8,4 (5)"]),
                # the same points again, one way or the other
                ("track 1 0 0 2 0\ntrack 1 2 0 0 0\n", "track 1 0 0 0,0 2,0\ntrack 1 5\n", []),
                # laid under another number
                ("track 0 0 0 2 0\ntrack 7 0 0 2 0\n", "track 0 4\ntrack 7 0 0 0,0 2,0\n", []),
                # laid before it was refused
                ("track 1 0 0 2 0\nlift 1\ntrack 1 0 0 8 8\n", "track 1 0 0 0,0 2,0\nlift 1 0\ntrack 1 9\n",
                 ["open: net 1 from 0,0 to 8,8 (9)"]),
                # a leg over both its points
                ("track 1 0 0 2 0\nleg 1 0 0 3 1\n", "track 1 9\nleg 1 0\n", [])):
            with self.subTest(steps):
                self.hold(foil_by(board + steps + "end\n", "board 0\n" + written), *right)

    def test_patches_and_legs_that_are_missing(self):
        text = "board 9 9 0\npatch 3 3 9 10  # key: Up\nleg 4 0 0 2 2\npatch 3 3 9 9\n" + "patch 1 1 2 2\n" * 2
        foil = foil_by(text + "end\n", "board 0\npatch 3\nleg 4 3\npatch 0\npatch 21\npatch 0\n")
        self.hold(foil, "not on the foil: patch 3 3 9 10 (Up) (3)", "not on the foil: leg 4 0 0 2 2 (3)")

    def test_two_nets_share_a_point(self):
        self.hold(legs("9 9 0", "1 0 4 9 5", "2 4 0 5 9"), "short: net 1 and net 2 have ink on 4,4")
        self.hold(legs("9 9 0", "2 4 0 5 9", "1 0 4 9 5"), "short: net 1 and net 2 have ink on 4,4")
        self.hold(legs("9 9 0", "1 0 4 4 5", "2 4 0 5 9"))
        self.hold(legs("9 9 0", "1 0 4 4 5", "1 4 0 5 9"))

    def test_the_ink_of_a_wide_pen_is_short_beside_the_legs(self):
        self.hold(legs("40 40 pen 2 0", "1 5 10 30 11", "2 5 14 30 15"), "short: net 1 and net 2 have ink on 3,12")
        self.hold(legs("40 40 pen 2 0", "1 5 10 30 11", "2 5 15 30 16"))

    def test_two_nets_are_nearer_than_the_pen_asks(self):
        for between in range(5, 9):
            foil = legs("40 40 pen 2 3", "1 5 10 30 11", "2 5 %d 30 %d" % (11 + between, 12 + between))
            near = "too near: net 1 and net 2 have %s between their ink, near 5,10, and the gap is 3"
            told = {5: "1 point", 6: "2 points"}.get(between)
            self.hold(foil, *([near % told] if told else []))
        self.hold(legs("9 9 2", "1 2 2 3 3", "2 5 5 6 6"))
        self.hold(legs("9 9 2", "1 2 2 3 3", "2 4 4 5 5"),
                  "too near: net 1 and net 2 have 1 point between their ink, near 2,2, and the gap is 2")

    def test_a_leg_at_the_edge(self):
        for leg, near in (("2 2 7 3", False), ("1 2 7 3", True), ("2 6 7 7", False), ("2 7 7 8", True)):
            told = ["too near the edge: net 1, by its leg " + leg] if near else []
            self.hold(legs("9 9 2", "1 " + leg), *told)

    def test_a_net_in_parts(self):
        parts = "in parts: net 1 has 2 parts that do not meet, at "
        self.hold(legs("9 9 0", "1 0 0 4 1", "1 6 6 9 7"), parts + "0,0 and 6,6")
        self.hold(legs("9 9 0", "1 0 0 4 1", "1 4 1 5 7"), parts + "0,0 and 4,1")
        self.hold(legs("9 9 0", "1 0 0 4 1", "1 4 0 5 7"))
        self.hold(legs("9 9 0", "1 0 0 4 1", "1 6 6 9 7", "1 3 0 4 7", "1 3 6 7 7", "1 0 0 1 4", "1 8 6 9 9"))
        self.hold(legs("40 40 pen 1 0", "1 5 5 9 6", "1 5 8 9 9"))
        self.hold(legs("40 40 pen 1 0", "1 5 5 9 6", "1 5 9 9 10"), parts + "5,5 and 5,9")

    def test_entries_past_110(self):
        for many in (110, 111, 128):
            foil = foil_by("board 9 9 0\n" + "patch 0 0 1 1\n" * many + "end\n", "board 0\n" + "patch 0\n" * many)
            self.hold(foil, *(["nearly full: %d of 128 entries" % many] if many > 110 else []))

    def test_many_findings_are_counted(self):
        text = "board 99 99 0\n" + "".join("track %d 0 0 1 1\n" % net for net in range(1, 31)) + "end\n"
        foil = foil_by(text, "board 0\n" + "".join("track %d 9\n" % net for net in range(1, 31)))
        found = checks.findings(foil)
        self.assertEqual((len(found), found[-1]), (checks.LISTED + 1, ("open", "and 18 more")))

    def test_lines_are_not_too_long(self):
        foil = foil_by("board 9 9 0\ntrack 1 0 0 8 8 # net: %s\nend\n" % ("word " * 20), "board 0\ntrack 1 9\n")
        for width in (40, 60, 116):
            page = checks.page(foil, width)
            self.assertTrue(page.startswith("check list:\n       open: net 1 (word word"))
            self.assertLessEqual(max(map(len, page.splitlines())), width)


if __name__ == "__main__":
    unittest.main()
