"""Words where something is refused: a text that lacks its end or is too long, a way drawn by hand, an order form."""
from typing import Any, List, Tuple

from screen import advising, ways
from screen.tests import given

OPEN = "board 9 9 0\ntrack 1 1 1 7 1\n"


class Unfinished(given.Served):
    def why(self, word: str, **values: Any) -> str:
        """What a click is answered that cannot be done."""
        told = self.page.ask(word, version=self.page.version, foil=0, **values)
        self.assertEqual(told["fault"]["kind"], "unread", told)
        return told["fault"]["why"]

    def test_a_text_without_end(self) -> None:
        foil = self.have(OPEN)
        fault = foil["fault"]
        self.assertEqual((fault["number"], fault["line"], fault["unended"], fault["here"]),
                         (14, None, True, ["its last line is not `end`"]))
        self.assertTrue(fault["to_do"])
        for word, values in (("draw", {"box": [4, 4, 5, 5]}), ("lift", {"net": 1}), ("look_up", {"x": 1, "y": 1}),
                             ("lay", {"net": 2, "from": [1, 3], "to": [7, 3]})):
            why = self.why(word, **values)
            self.assertIn("its last line is not `end`", why)
            self.assertIn("(14)", why)
            self.assertIn("a last line `end`", why)
            self.assertNotIn("lines say why", why)

    def test_end_is_added_as_one_step(self) -> None:
        for text in (OPEN, OPEN.rstrip("\n"), OPEN + "\n# a remark\n"):
            self.have(text)
            before = self.page.state()["undo"]
            state = self.page.change("end", foil=0)["answer"]["state"]
            self.assertEqual((state["foil"]["text"], state["foil"]["fault"], state["undo"]),
                             (text.rstrip("\n") + "\nend\n", None, before + 1))
            self.assertEqual(self.page.change("undo", foil=0)["answer"]["state"]["foil"]["text"], text)

    def test_end_that_would_not_help(self) -> None:
        for text in ("board 9 9 0\nbytes 04 01 00\n", OPEN + "end\n", "board 0 9 0\n", "what\n", ""):
            self.have(text)
            foil = self.foil()
            told = self.page.change("end", foil=0)
            self.assertEqual(told["fault"]["kind"], "unread", told)
            self.assertFalse((foil["fault"] or {}).get("unended"))
            self.assertEqual(self.foil()["text"], text)

    def test_a_text_that_is_too_long(self) -> None:
        text = "board 9 9 0\n" + "lift 1\n" * 19_998 + "end\n"
        foil = self.have(text)
        fault = foil["fault"]
        self.assertEqual((fault["number"], fault["line"], fault["unended"], foil["begun"]), (18, None, False, False))
        self.assertEqual(fault["here"], [f"it makes {foil['job']['bytes']} bytes"])
        self.assertGreater(foil["job"]["bytes"], 60_000)
        why = self.why("lift", net=1)
        self.assertIn("(18)", why)
        self.assertIn("take steps out", why)

    def test_a_line_at_fault_is_named(self) -> None:
        self.have("board 9 9 0\nend\npatch 1 1 2 2\n")
        # the end mark that bytes follow
        self.assertIn("line 2 is at fault (17)", self.why("lift", net=1))
        self.have("board 9 9 16\nend\n")
        self.assertIn("line 1 is at fault (2)", self.why("lift", net=1))


class Drawn(given.Served):
    """A foil of 20 by 12 points with a pen of one point and a gap of one: a patch from 8,3 to 10,5 blocks 7 to 11 and 2
    to 6, net 1 on row 9 blocks rows 8 to 10, and the edge its own points."""
    TEXT = "board 20 12 1\npatch 8 3 11 6  # key: Page on\ntrack 1 2 9 17 9\nend\n"

    def here(self, *corners: Tuple[int, int]) -> List[str]:
        """What is said of a way that is refused by 19, before it is booked and when it is."""
        asked = {"foil": 0, "net": 7, "corners": [list(corner) for corner in corners]}
        told = [self.page.ask("try_book", **asked), self.page.change("book", **asked)]
        self.assertEqual([of["refused"]["number"] for of in told], [19, 19])
        self.assertEqual(told[0]["refused"], told[1]["refused"])
        return told[0]["refused"]["here"]

    def setUp(self) -> None:
        super().setUp()
        self.have(self.TEXT)

    def test_what_blocks_a_straight(self) -> None:
        self.assertEqual(self.here((2, 4), (15, 4)), [
            "its straight from 2,4 to 15,4 is not free at 7,4, which is too near the patch 8 3 11 6 (Page on)"])
        self.assertEqual(self.here((15, 4), (2, 4)), [
            "its straight from 15,4 to 2,4 is not free at 11,4, which is too near the patch 8 3 11 6 (Page on)"])
        self.assertEqual(self.here((5, 4), (5, 9), (6, 9)), [
            "its straight from 5,4 to 5,9 is not free at 5,8, which is too near net 1",
            "its straight from 5,9 to 6,9 is not free at 6,9, which is on net 1"])
        self.assertEqual(self.here((2, 4), (0, 4)), [
            "its straight from 2,4 to 0,4 is not free at 0,4, which is too near the edge"])
        self.assertEqual(self.here((2, 4), (2, 12)), [
            "its straight from 2,4 to 2,12 is not free at 2,8, which is too near net 1"])
        self.assertEqual(self.here((18, 4), (20, 4)), [
            "its straight from 18,4 to 20,4 is not free at 19,4, which is too near the edge"])
        self.assertEqual(self.here((9, 4)), ["its only corner is not free at 9,4, which is on the patch 8 3 11 6 "
                                             "(Page on)"])
        self.assertEqual(self.here((30, 4)), ["its only corner is off the foil at 30,4"])

    def test_corners_that_are_no_way(self) -> None:
        self.assertEqual(self.here((2, 2), (4, 5)), [
            "its corner 2, 4,5, is neither level with its corner 1, 2,2, nor upright over it"])
        self.assertEqual(self.here((2, 2), (2, 2)), ["its corner 2, 2,2, is its corner 1 again"])
        self.assertEqual(self.here((2, 2), (4, 2), (6, 2)), [
            "its corner 2, 4,2, is in the middle of a straight: leave it out"])
        self.assertEqual(self.here(), ["it has no corner"])

    def test_three_faults_are_named(self) -> None:
        said = self.here((2, 2), (3, 3), (4, 4), (5, 5), (6, 6))
        self.assertEqual((len(said), said[-1]), (4, "and more behind that"))

    def test_every_fault_is_named_and_no_other(self) -> None:
        """Random ways: where the library says 19 a fault is named, and where it does not none would be."""
        refused = 0
        for chance in given.chances(60):
            corners = [[chance.randrange(20), chance.randrange(12)]]
            for _ in range(chance.randint(0, 4)):
                x, y = corners[-1]
                corners.append([chance.randrange(20), y] if chance.random() < 0.5 else [x, chance.randrange(12)])
            told = self.page.ask("try_book", foil=0, net=7, corners=corners)
            if "refused" in told:
                refused += 1
                self.assertEqual(told["refused"]["number"], 19)
                self.assertTrue(told["refused"]["here"], corners)
            else:
                self.assertEqual(self.faults(corners), [], corners)
        self.assertTrue(10 < refused < 55, refused)

    def faults(self, corners: List[List[int]]) -> List[str]:
        """What would be named of a way, whatever the library says."""
        account = self.server.session.account(0)
        return ways.faults(advising.case_of(account, None), account.run.strips, corners)


class OrderForm(given.Served):
    def test_refusals_have_the_nearest_free_point(self) -> None:
        self.have("board 9 9 0, patch 4 2 5 7\nend\n")
        wishes = [{"net": 1, "from": [1, 4], "to": [7, 4]}, {"net": 2, "from": [1, 5], "to": [7, 3]},
                  {"net": 3, "from": [0, 0], "to": [9, 0]}]
        for keep in (False, True):
            ways = self.page.change("list", foil=0, wishes=wishes, keep=keep)["answer"]["ways"]
            self.assertEqual([way["number"] for way in ways], [0, 8, 7])
            # as README has it of the same track
            self.assertEqual([way["here"] for way in ways], [
                [], ["its end 7,3 is on net 1; the nearest free point is 6,3"], ["its end 9,0 is off the foil"]])
            self.page.change("undo", foil=0)

    def test_the_words_are_those_of_the_line(self) -> None:
        """What the order form says of a refused net is what the text says of its line, kept as open."""
        for name in ("reader-keys", "wide-pen"):
            foil = self.have(given.sample(name))
            width, height = foil["board"]["width"], foil["board"]["height"]
            for chance in given.chances(3):
                point = lambda: [chance.randrange(width + 1), chance.randrange(height)]
                wishes = [{"net": 500 + at, "from": point(), "to": point()} for at in range(4)]
                told = self.page.change("list", foil=0, wishes=wishes, keep=True)["answer"]
                rows = [row["words"] for row in told["state"]["foil"]["rows"] if (row["net"] or 0) >= 500]
                for way, words in zip(told["ways"], rows):
                    self.assertTrue(all(note in "; ".join(words) for note in way["here"]), (way, words))
                self.assertTrue(any(way["here"] for way in told["ways"] if way["number"] in (7, 8)) or not any(
                    way["number"] in (7, 8) for way in told["ways"]))
                self.page.change("undo", foil=0)
