"""What would help with a refused step: by the rule of blocking, and by asking the job program, where it is built."""
import unittest
from unittest import mock

from desk import accounts, advice, foils, lines, program, refusals, textform, words
from desk.tests import given

TABLE = refusals.readme_table()
NO_PROGRAM = program.ROOT / "no" / "program"


def notes_of(text, path=given.BUILT):
    """The notes of a text, in the order of its steps."""
    account = accounts.account_of(textform.read(text), path)
    return list(advice.notes(account.text, account.run, account.foil, path).values())


@given.with_program
class Asked(unittest.TestCase):
    def hold(self, text, *right):
        self.assertEqual(notes_of(text + "end\n"), [list(said) for said in right])

    def test_which_end_what_blocks_it_and_the_nearest_free_point(self):
        board = "board 40 30 pen 2 1\npatch 10 10 20 20\n"
        for track, *said in (
                ("12 12 30 15", "its start 12,12 is on the patch 10 10 20 20; the nearest free point is 12,6"),
                ("30 15 22 12", "its end 22,12 is too near the patch 10 10 20 20; the nearest free point is 23,12"),
                ("30 15 1 28", "its end 1,28 is too near the edge; the nearest free point is 3,26"),
                ("0 5 22 12", "its start 0,5 is too near the edge; the nearest free point is 3,5",
                 "its end 22,12 is too near the patch 10 10 20 20; the nearest free point is 23,12")):
            self.hold(board + "track 1 " + track + "\n", said)

    def test_nets_in_the_way(self):
        text = "board 30 30 pen 1 1\ntrack 1 5 5 5 25\n"
        for x, said in ((5, "on"), (6, "too near"), (8, "too near")):
            self.hold(text + "track 2 %d 9 20 9\n" % x,
                      ["its start %d,9 is %s net 1; the nearest free point is %d,9" % (x, said, 9)])
        self.assertEqual(notes_of(text + "track 2 9 9 20 9\nend\n"), [])

    def test_names_are_told(self):
        self.hold("board 9 9 0\npatch 1 1 4 4  # key: Page on\ntrack 1 2 2 8 8\n",
                  ["its start 2,2 is on the patch 1 1 4 4 (Page on); the nearest free point is 2,0"])

    def test_no_point_is_free(self):
        self.hold("board 4 4 0\npatch 0 0 4 4\ntrack 1 2 2 2 2\n",
                  ["its start 2,2 is on the patch 0 0 4 4; no point is free",
                   "its end 2,2 is on the patch 0 0 4 4; no point is free"])

    def test_the_foil_is_that_of_the_refused_step(self):
        self.hold("board 9 9 0\ntrack 1 4 0 4 8\ntrack 2 4 4 8 8\nlift 1\npatch 3 0 9 9\n",
                  ["its start 4,4 is on net 1; the nearest free point is 3,4"])

    def test_which_lift_opens_a_way(self):
        board = "board 9 9 0\ntrack 1 3 0 3 8\n"
        self.hold(board + "track 2 0 4 8 4\n", ["a lift of net 1 (no bends, length 8) opens a way"])
        self.hold(board + "track 3 5 0 5 8\ntrack 2 0 4 8 4\n", ["no lift of a single net opens a way"])
        self.hold(board + "track 3 5 0 5 8\ntrack 2 0 4 4 4\n", ["a lift of net 1 (no bends, length 4) opens a way"])
        self.hold("board 9 9 0\ntrack 1 0 5 5 5\ntrack 2 5 0 5 4\ntrack 3 2 2 8 8\n",
                  ["a lift of one of these nets opens a way: 1 (1 bend, length 12), 2 (1 bend, length 12)"])

    def test_no_lift_can_help(self):
        self.hold("board 9 9 0\npatch 4 0 5 9\ntrack 2 0 4 8 4\n",
                  ["there is no track to lift: patches and the edge part its two points"])

    def test_a_lift_that_opens_a_way_does(self):
        opened = 0
        for chance in given.seeds(60):
            text = "board 12 12 %d\n" % chance.choice([0, 1])
            for net in range(1, 12):
                text += "track %d %s\n" % (net, " ".join(str(chance.randint(1, 10)) for _ in range(4)))
            account = accounts.account_of(textform.read(text + "end\n"), given.BUILT)
            told = advice.notes(account.text, account.run, account.foil, given.BUILT)
            for at, outcome in enumerate(account.run.outcomes):
                if outcome.said.number == 9:
                    nets = [net for net in foils.legs_of(foils.tables(account.run)[at]) if self.opens(account, at, net)]
                    said = told[outcome.key][0]
                    self.assertEqual([net for net in range(1, 12) if "net %d " % net in said or " %d (" % net in said],
                                     sorted(nets))
                    opened += bool(nets)
        self.assertGreater(opened, 10)

    def opens(self, account, at, net):
        """Whether the track of the job's step at a place is laid where a net is lifted before it, in the job itself."""
        steps = [textform.step_text(outcome.step) for outcome in account.run.outcomes]
        made = textform.read("\n".join(steps[:at] + ["lift %d" % net, steps[at], "end"])).job
        return lines.run_of(made, program.run(given.BUILT, made)).outcomes[-1].said.number == 0

    def test_blocked_ends_are_those_that_the_program_refuses(self):
        refused = 0
        for chance in given.seeds(150):
            text = given.random_text(chance, largest=chance.choice([9, 20]), most=20)
            account = accounts.account_of(textform.read(text), given.BUILT)
            told = advice.notes(account.text, account.run, account.foil, given.BUILT)
            for outcome in account.run.refused:
                if outcome.said.number in (7, 8, 21):
                    refused += 1
                    self.assertRegex(told[outcome.key][0], "^it")
        self.assertGreater(refused, 150)

    def test_the_program_is_asked_so_often_and_no_more(self):
        text = "board 60 60 0\npatch 0 30 60 31\n"
        text += "".join("track %d %d 0 %d 0\n" % (net, 2 * net, 2 * net) for net in range(1, 26))
        text += "".join("track %d 1 0 1 50\n" % net for net in range(30, 90)) + "end\n"
        told = notes_of(text)
        tried = advice.MOST // 25
        self.assertEqual([said[0].split()[0] for said in told], ["no"] * tried + ["lifts"] * (60 - tried))

    def test_strips_are_asked_for_so_often_and_no_more(self):
        text = "board 60 60 0\n" + "".join("patch %d 0 %d 9\ntrack 1 %d 0 50 50\n" % (x, x + 1, x) for x in (3, 6, 9))
        with mock.patch.object(advice, "MOST", 2):
            told = notes_of(text + "end\n")
        self.assertEqual(["nearest" in said[0] for said in told], [True, True, False])


class ByTheRule(unittest.TestCase):
    """Notes for which nothing is asked."""

    def case(self, board, table, step):
        board, step = textform.step_of(board.split()), textform.step_of(step.split())
        return advice.Case(board, [foils.Entry(*entry) for entry in table], {}, step)

    def test_which_end_is_off_the_foil(self):
        case = self.case("board 9 5 0", [], "track 1 9 4 8 5")
        self.assertEqual(advice.helping(case, 7, None),
                         ["its start 9,4 is off the foil", "its end 8,5 is off the foil"])

    def test_what_a_patch_would_block(self):
        legs = [(1, (5, 5, 6, 20)), (1, (5, 5, 20, 6)), (2, (30, 5, 31, 9)), (0, (0, 0, 9, 9))]
        for step, told in (("patch 0 0 3 3", ["it is too near net 1"]), ("patch 0 0 2 2", []),
                           ("patch 8 8 28 9", ["it is too near net 1 and net 2"])):
            self.assertEqual(advice.helping(self.case("board 40 40 pen 1 2", legs, step), 21, None), told)

    def test_what_blocks_a_leg(self):
        case = self.case("board 40 40 pen 1 2", [(0, (5, 5, 6, 6)), (2, (8, 8, 9, 9))], "leg 3 8 8 9 12")
        self.assertEqual(advice.helping(case, 21, None), ["it is too near the patch 5 5 6 6"])

    def test_the_nearest_of_several_points(self):
        for strips, right in (([(0, 0, 5, 1), (7, 0, 9, 9)], (7, 5)), ([(0, 0, 9, 3), (0, 6, 9, 9)], (5, 6)),
                              ([(5, 4, 6, 5), (4, 5, 5, 6), (6, 5, 7, 6)], (5, 4)),
                              ([(4, 5, 5, 6), (6, 5, 7, 6)], (4, 5))):
            self.assertEqual(advice.nearest((5, 5), strips), right)

    def test_many_things_in_the_way(self):
        table = [(net, (5, 5, 6, 6)) for net in range(1, 7)]
        case = self.case("board 9 9 0", table, "track 9 5 5 8 8")
        self.assertEqual(advice.helping(case, 8, None), ["its start 5,5 is on net 1, on net 2, on net 3 and 3 more"])

    def test_a_track_that_was_laid_later(self):
        for name, said in (("window", "net 9 was laid later, on line 45"),
                           ("reader-relaid", "its end 67,127 is on net 5; net 6 was laid later, on line 40")):
            read, run = textform.read(given.text_of(name)), given.run_of(name)
            notes = advice.notes(read, run, foils.foil_of(run), NO_PROGRAM)
            self.assertEqual("; ".join(list(notes.values())[0]), said)
        text = textform.read("board 9 9 0\ntrack 0 0 0 2 0\ntrack 7 0 0 2 0\nend\n")
        run = lines.run_of(text.job, "board 0\ntrack 0 4\ntrack 7 0 0 0,0 2,0\n")
        self.assertEqual(list(advice.notes(text, run, foils.foil_of(run), NO_PROGRAM).values()),
                         [["at the end net 7 joins its two points"]])

    def test_an_answer_that_is_not_believed_helps_with_nothing(self):
        path, folder = given.replay(given.written_for("less-ink"))
        self.addCleanup(folder.cleanup)
        self.assertEqual(notes_of(given.text_of("less-ink"), path), [["its end 7,3 is on net 1"]])

    def test_no_foil_no_notes(self):
        for name in ("cut-short", "board-size", "too-long"):
            read, run = textform.read(given.text_of(name)), given.run_of(name)
            self.assertEqual(advice.notes(read, run, foils.foil_of(run), NO_PROGRAM), {})


class InWords(unittest.TestCase):
    def test_the_words_of_a_number_are_said_once(self):
        read, run = textform.read(given.text_of("refusals")), given.run_of("refusals")
        rows = [row for row in words.rows(read, run, TABLE) if row.refused]
        for number in (3, 4, 5, 6, 7, 8):
            said = [row.words for row in rows if "refused (%d)" % number in row.words[0]]
            self.assertEqual(said[0], words.turned_down("refused", number, TABLE))
            self.assertGreater(len(said), 1)
            first = next(row.number for row in rows if row.words is said[0])
            self.assertEqual(said[1:], [["refused (%d): as on line %d" % (number, first)]] * (len(said) - 1))

    def test_notes_and_names_stand_in_the_rows(self):
        read, run = textform.read(given.text_of("less-ink")), given.run_of("less-ink")
        key = run.refused[0].key
        row = words.rows(read, run, TABLE, {key: "Page on"}, {key: ["one", "two"]})[3]
        self.assertEqual(row.words, words.turned_down('"Page on" refused', 8, TABLE) + ["here: one; two"])


if __name__ == "__main__":
    unittest.main()
