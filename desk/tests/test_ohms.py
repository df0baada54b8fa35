"""The ohms as they are read at the desk: the width of the pen, thousandths and whole numbers, dead nets, and which
figure is out of its range. A program that answers stored lines stands for ohms_main."""
import contextlib
import io
import os
import struct
import unittest
from unittest import mock

from desk import asking, building, ohms, program, refusals, statuses, textform
from desk.tests import given

TABLE = refusals.readme_table()
BUILT = given.BUILT.with_name("ohms_main")
INK = ["--sheet", "0.5", "--bend", "0.5"]


def line(net, number):
    """A line of the program."""
    return "ohms %d 0 %s\n" % (net, struct.pack(">d", number).hex())


class Ohms(unittest.TestCase):
    def ask(self, words, answers, name="document-01"):
        """The status of the command on a sample, whose program answers these lines, what is printed, and what is
        said; the bytes that the program was given are kept."""
        runs, first = given.replay(given.written_for(name))
        path, second = given.replay(answers)
        for folder in (first, second):
            self.addCleanup(folder.cleanup)
        path.write_text(path.read_text().replace("cat > /dev/null", 'cat > "$(dirname "$0")/given"'))
        out, err = io.TextIOWrapper(io.BytesIO(), newline=""), io.StringIO()
        with mock.patch.object(building, "built", return_value=[runs, path]), contextlib.redirect_stdout(out), \
                contextlib.redirect_stderr(err):
            status = statuses.ended(lambda: asking.ask(asking.OHMS, words + [str(given.SAMPLES / (name + ".txt"))]))
        kept = path.with_name("given")
        self.given = struct.unpack("<3d", kept.read_bytes()[:24]) if kept.exists() else None
        return status, out.buffer.getvalue().decode(), err.getvalue()

    def test_the_width_is_the_pen_s(self):
        for name, width in (("document-01", 1.0), ("reader-keys", 1.0), ("wide-pen", 5.0)):
            status, out, _ = self.ask(INK, line(1, 3.5), name)
            self.assertEqual(self.given, (0.5, width, 0.5))
            self.assertIn("tracks %d point%s wide (the pen's)" % (width, "" if width == 1 else "s"), out)
            self.ask(INK + ["--width", "2.5"], line(1, 3.5), name)
            self.assertEqual(self.given, (0.5, 2.5, 0.5))

    def test_the_width_of_each_pen(self):
        for half in range(8):
            made = textform.read("board 99 99 pen %d 3\nend\n" % half).job
            self.assertEqual(ohms.pen_width(made), 2 * half + 1)
        for made in (b"", b"\0", b"\1\0", b"\2\0\0", b"\x40"):
            self.assertEqual(ohms.pen_width(made), 1)

    def test_for_reading(self):
        answers = line(1, 1 / 3) + line(20, 1234.56789) + line(300, 0.0)
        self.assertEqual(self.ask(INK + ["--width", "2"], answers), (0, (
            "ink: 0.5 ohms a square, tracks 2 points wide, 0.5 squares for a bend\n"
            "net   1     0.333 ohms\nnet  20  1234.568 ohms\nnet 300     0.000 ohms\n"), ""))

    def test_the_very_number(self):
        answers = line(1, 1 / 3) + line(20, 0.1 + 0.2) + line(300, 1e300)
        self.assertEqual(self.ask(INK + ["--exact"], answers), (
            0, "1 0.3333333333333333\n20 0.30000000000000004\n300 1e+300\n", ""))

    def test_dead_nets(self):
        answers = line(1, 20.0) + line(2, 20.000000001) + line(3, 400.0)
        status, out, err = self.ask(INK + ["--dead", "20"], answers)
        self.assertEqual((status, [row.endswith("ohms  dead: above 20") for row in out.splitlines()[1:]]),
                         (6, [False, True, True]))
        self.assertEqual(err, "./foil-ohms: 2 nets are dead, with more than 20 ohms: 2, 3\n")
        status, out, again = self.ask(INK + ["--dead", "20", "--exact"], answers)
        self.assertEqual((status, out, again), (6, "1 20.0\n2 20.000000001\n3 400.0\n", err))
        self.assertEqual(self.ask(INK + ["--dead", "400"], answers)[::2], (0, ""))

    def test_a_dead_net_and_a_refused_step(self):
        status, _, err = self.ask(INK + ["--dead", "1"], line(1, 2.0), "less-ink")
        self.assertEqual(status, 1)
        self.assertIn("./foil-ohms: 1 net is dead, with more than 1 ohms: 1\n1 of 4 steps was refused", err)

    def test_no_net(self):
        for words in (INK, INK + ["--exact"], INK + ["--dead", "0"]):
            told = "./foil-ohms: there is no net on the foil, so there are no ohms\n"
            self.assertEqual(self.ask(words, ""), (0, "", told))

    def test_the_figure_that_is_out_of_its_range(self):
        for words, told in ((["--sheet", "0", "--bend", "0"], "--sheet 0: ohms a square are above 0 and at most 1,000"),
                            (["--sheet", "nan", "--bend", "0"], "--sheet nan: ohms a square are above 0"),
                            (["--sheet", "1", "--bend", "4.5"], "--bend 4.5: squares for a bend are 0 to 4"),
                            (INK + ["--width", "inf"], "--width inf: points in the width of a track are 1 to 64")):
            status, out, err = self.ask(words, "ohms 5 22\n")
            self.assertEqual((status, out), (3, ""))
            self.assertIn("nothing is printed, since it was refused (22): %s\n%s" % (TABLE[22].says, told), err)
            self.assertIn("what to do: %s" % TABLE[22].to_do, " ".join(err.split()))

    def test_words_that_are_no_numbers(self):
        for words, told in ((["--sheet", "0,5", "--bend", "0"], "`0,5` has a comma"),
                            (["--sheet", "much", "--bend", "0"], "`much` is no number"),
                            (["--sheet", "1_0", "--bend", "0"], "`1_0` is no number"),
                            (INK + ["--dead", "nan"], "`nan` is no limit"), (INK + ["--dead", "-1"], "is no limit"),
                            (["--bend", "0"], "required: --sheet")):
            status, out, err = self.ask(words, line(1, 1.0))
            self.assertEqual((status, out, self.given), (4, "", None))
            self.assertIn(told, err)

    @given.with_program
    @unittest.skipUnless(os.access(BUILT, os.X_OK), "not built: %s; ./foil-ohms builds it" % BUILT)
    def test_ranges_are_the_program_s(self):
        made = given.SAMPLES.joinpath("document-01.job").read_bytes()
        edges = ([0.0, 5e-324, 1000.0, 1000.0000000000001, -1.0, float("nan"), float("inf")],
                 [0.9999999999999999, 1.0, 64.0, 64.00000000000001, float("nan"), float("inf")],
                 [-5e-324, 0.0, 4.0, 4.000000000000001, float("nan"), float("inf")])
        for place, figures in enumerate(edges):
            for figure in figures:
                ink = ohms.Ink(*(figure if at == place else 1.0 for at in range(3)))
                refused = program.run(BUILT, ink.bits + made) == "ohms 5 22\n"
                self.assertEqual(bool(ohms.out_of_range(ink)), refused, ink)


if __name__ == "__main__":
    unittest.main()
