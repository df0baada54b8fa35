"""The program's lines, and the steps that they are about."""
import unittest

from desk import lines, textform
from desk.tests import given

JOB = textform.read("board 6 4 0, patch 2 0 3 3\ntrack 5 0 0 4 0\nend").job
GOOD = "board 0\npatch 0\ntrack 5 0 2 0,0 0,3 4,3 4,0\nstrip 1 0 2 3\n"


class Lines(unittest.TestCase):
    def test_a_track(self):
        said = lines.said_of("track 5 0 2 0,0 0,3 4,3 4,0")
        self.assertEqual((said.net, said.number, said.bends, said.length), (5, 0, 2, 10))
        self.assertEqual(lines.said_of("track 5 0 0 1,0").length, 0)
        self.assertEqual(lines.said_of("track 1000 4"), lines.Said("track", 1000, 4))

    def test_each_step_has_its_line(self):
        run = lines.run_of(JOB, GOOD)
        told = [(outcome.place, outcome.said.word) for outcome in run.outcomes]
        self.assertEqual(told, [(0, "board"), (0, "patch"), (15, "track")])
        self.assertEqual((run.strips, run.fault, run.place), ([(1, 0, 2, 3)], None, 26))

    def test_samples(self):
        for name in given.NAMES:
            with self.subTest(name):
                run = given.run_of(name)
                words = [line.split()[0] for line in given.written_for(name).splitlines()]
                told = [word for word in words if word not in ("strip", "file")]
                self.assertEqual([outcome.said.word for outcome in run.outcomes if outcome.said], told)

    def test_a_refused_board_ends_the_job(self):
        for number in (1, 2, 20):
            run = lines.run_of(JOB, "board %d\n" % number)
            self.assertEqual([outcome.said and outcome.said.number for outcome in run.outcomes], [number, None, None])
            self.assertIsNone(run.strips)

    def test_a_file_at_fault_has_its_place(self):
        run = lines.run_of(JOB[:-1] + b"\x40", "board 0\npatch 0\ntrack 5 9\nfile 15\n")
        self.assertEqual((run.fault.number, run.place), (15, 26))
        run = lines.run_of(JOB, "file 18\n")
        self.assertEqual((run.fault.number, [outcome.said for outcome in run.outcomes]), (18, [None] * 3))

    def test_strange_lines_are_not_believed(self):
        for written in (
                "", "board 0\npatch 0\n", "board 0\nlift 5 0\ntrack 5 9\n", "board 0\npatch 0\ntrack 6 9\n",
                GOOD + "patch 0\n", "bord 0\n", "board\n", "board 0\npatch 0\ntrack 5 0 2\n", GOOD + "strip 1 2 3\n",
                "board 0\nfile 15\n",
                "board 1\npatch 0\n", "board 1\nstrip 0 0 1 1\n", "board 1\nfile 14\n"):
            with self.subTest(written):
                with self.assertRaises(lines.Strange):
                    lines.run_of(JOB, written)
        with self.assertRaises(lines.Strange):
            lines.run_of(JOB[:-1], GOOD)


if __name__ == "__main__":
    unittest.main()
