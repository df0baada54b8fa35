"""A key that is moved: its tracks go with it, all others stay, and a move that cannot be is refused whole."""
from screen.tests import given


class Moves(given.Served):
    def nets(self, foil):
        """The legs of each net."""
        return {net["net"]: net["legs"] for net in foil["nets"]}

    def test_a_key_moves_with_its_track(self):
        before = self.have(given.sample("reader-keys"))
        box = [52, 32, 68, 44]
        self.assertEqual(self.page.ask("tracks_of", foil=0, box=box)["answer"], {"nets": [7], "stay": []})
        tried = self.page.ask("try_move", foil=0, box=box, by=[-3, 2])["answer"]
        told = self.page.change("move", foil=0, box=box, by=[-3, 2])["answer"]
        after = told["state"]["foil"]
        self.assertEqual((told["nets"], tried["nets"]), ([7], [7]))
        self.assertEqual(self.nets(tried["foil"]), self.nets(after))
        self.assertIn([49, 34, 65, 46], [patch["box"] for patch in after["patches"]])
        self.assertNotIn(box, [patch["box"] for patch in after["patches"]])
        for net, legs in self.nets(before).items():
            if net != 7:
                self.assertEqual(self.nets(after)[net], legs)
        self.assertEqual(next(net["ends"] for net in after["nets"] if net["net"] == 7), [[67, 40], [76, 119]])
        self.assertEqual([row["refused"] for row in after["rows"]], [False] * len(after["rows"]))
        back = self.page.change("undo", foil=0)["answer"]["state"]["foil"]
        self.assertEqual((back["text"], back["job"]), (before["text"], before["job"]))

    def test_an_end_between_two_keys_is_that_of_the_nearer(self):
        self.have("board 20 12 0\npatch 2 2 4 4\npatch 7 2 9 4\ntrack 1 6 3 6 9\ntrack 2 4 3 4 9\nend\n")
        self.assertEqual(self.page.ask("tracks_of", foil=0, box=[2, 2, 4, 4])["answer"]["nets"], [2])
        self.assertEqual(self.page.ask("tracks_of", foil=0, box=[7, 2, 9, 4])["answer"]["nets"], [1])

    def test_others_that_would_take_another_way_are_kept_as_legs(self):
        text = "board 20 12 0\npatch 2 2 4 4\ntrack 1 5 3 18 3\ntrack 2 5 1 12 6\nend\n"
        before = self.have(text)
        told = self.page.change("move", foil=0, box=[2, 2, 4, 4], by=[0, 6], nets=[1])["answer"]["state"]["foil"]
        self.assertEqual(self.nets(told)[2], self.nets(before)[2])
        self.assertEqual(told["nets"][-1]["ends"], [[5, 9], [18, 3]])

    def test_an_open_track_is_laid_behind_those_of_the_key(self):
        self.have(given.sample("less-ink"))
        after = self.page.change("move", foil=0, box=[4, 2, 5, 7], by=[-1, 2])["answer"]["state"]["foil"]
        self.assertEqual(after["text"].splitlines()[1:], [
            "board 9 9 0, patch 3 4 4 9", "track 1 0 6 6 6", "track 2 1 5 7 3        # 8: track 1 is on its end",
            "end"])
        self.assertEqual(self.nets(after)[1], [[0, 3, 1, 7], [0, 3, 7, 4], [6, 3, 7, 7]])

    def test_a_move_that_cannot_be(self):
        self.have("board 20 12 0\npatch 2 2 4 4\ntrack 1 5 3 18 3\ntrack 2 0 8 19 8\npatch 10 10 12 12\nend\n")
        before = self.page.state()
        for by, number in (([0, 5], 21), ([0, 30], 3)):
            told = self.page.change("move", foil=0, box=[2, 2, 4, 4], by=by)
            self.assertEqual(told["refused"]["number"], number, told)
        for by in ([-3, 0], [0, -3]):
            told = self.page.change("move", foil=0, box=[2, 2, 4, 4], by=by)
            self.assertIn("no call can be asked", told["fault"]["why"])
        told = self.page.change("move", foil=0, box=[10, 10, 12, 12], by=[6, -8])
        self.assertEqual(told["refused"]["number"], 21, told)
        self.assertIn("net 1", told["refused"]["here"][0])
        self.assertEqual(self.page.change("move", foil=0, box=[1, 1, 2, 2], by=[1, 1])["fault"]["kind"], "asked")
        self.assertEqual(self.page.state(), before)

    def test_an_end_that_would_go_below_0(self):
        self.have(given.sample("less-ink"))
        for word in ("try_move", "move"):
            told = self.page.change(word, foil=0, box=[4, 2, 5, 7], by=[-2, 3])
            self.assertIn("an end of net 1 would go along, to -1,7", told["fault"]["why"])

    def test_a_patch_in_a_line_of_bytes(self):
        self.have("board 20 12 0\nbytes 02 02 00 02 00 04 00 04 00\nend\n")
        told = self.page.change("move", foil=0, box=[2, 2, 4, 4], by=[1, 1])
        self.assertIn("a line of bytes", told["fault"]["why"])

    def test_names_and_remarks_stay(self):
        self.have("# a remark\nboard 20 12 0, patch 2 2 4 4  # key: on\ntrack 1 5 3 18 3  # net: one\n\nend\n")
        told = self.page.change("move", foil=0, box=[2, 2, 4, 4], by=[1, 1])["answer"]["state"]["foil"]
        self.assertEqual(told["text"], "# a remark\nboard 20 12 0, patch 3 3 5 5  # key: on\n\n"
                                       "track 1 6 4 18 3  # net: one\nend\n")

    def test_random_moves(self):
        for chance in given.chances(4):
            before = self.have(given.sample("window"))
            for _ in range(12):
                patch = chance.choice(before["patches"])
                by = [chance.randint(-6, 6), chance.randint(-6, 6)]
                told = self.page.change("move", foil=0, box=patch["box"], by=by)
                if "answer" not in told:
                    self.assertTrue("refused" in told or "below 0" in told["fault"]["why"], told)
                    self.assertEqual(self.foil()["text"], before["text"])
                    continue
                after = told["answer"]["state"]["foil"]
                for net, legs in self.nets(before).items():
                    self.assertIn(net, self.nets(after))
                    if net not in told["answer"]["nets"]:
                        self.assertEqual(self.nets(after)[net], legs)
                self.assertEqual(len(after["patches"]), len(before["patches"]))
                before = after
