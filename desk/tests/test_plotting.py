"""The command ./foil-plot and what it is made of: strokes, their order, the sheet, the formats by hand, and what is
refused. Programs that write stored bytes stand for the proved ones."""
import contextlib
import io
import pathlib
import sys
import tempfile
import unittest
from typing import Dict, List, Sequence, Tuple
from unittest import mock

from desk import building, outputs, textform
from desk.plotting import command, formats, sheets, strokes, tables
from desk.tests import given, plot_readers

MM = 1_000_000
# a track round a bar, with a wide pen; a key beside it; and a track of one point
TEXT = "board 30 20 pen 1 0\npatch 20 2 25 7\ntrack 3 2 2 8 12\ntrack 1 25 15 25 15\nend\n"
LINES = "board 0\npatch 0\ntrack 3 0 1 2,2 2,12 8,12\ntrack 1 0 0 25,15\nstrip 1 16 29 19\n"
SAVED = "board 30 20 pen 1 0\npatch 20 2 25 7\nleg 3 2 2 3 13\nleg 3 2 12 9 13\nleg 1 25 15 26 16\nend\n"
SIZED = "# point: 0.5 mm\n" + TEXT


def table_of(text: str) -> tables.Table:
    """The table of a saved foil, by its text."""
    return tables.table_of(textform.read(text).job)


class Strokes(unittest.TestCase):
    def corners(self, *legs: tables.Box) -> List[Tuple[tables.Point, ...]]:
        """The polylines that legs of a net make."""
        return strokes.chained(legs)

    def test_legs_that_follow_each_other_are_one_polyline(self) -> None:
        self.assertEqual(self.corners((0, 0, 5, 1), (4, 0, 5, 8), (4, 7, 9, 8)), [((0, 0), (4, 0), (4, 7), (8, 7))])
        self.assertEqual(self.corners((4, 0, 5, 8), (0, 0, 5, 1), (4, 7, 9, 8)), [((0, 0), (4, 0), (4, 7), (8, 7))])

    def test_a_leg_that_meets_another_in_its_middle_is_a_stroke_of_its_own(self) -> None:
        self.assertEqual(self.corners((0, 0, 9, 1), (4, 0, 5, 8)), [((0, 0), (8, 0)), ((4, 0), (4, 7))])

    def test_a_leg_straight_on_is_a_leg_of_its_own_in_the_same_stroke(self) -> None:
        self.assertEqual(self.corners((0, 0, 5, 1), (4, 0, 9, 1)), [((0, 0), (4, 0), (8, 0))])

    def test_the_pen_does_not_go_back_over_a_leg(self) -> None:
        self.assertEqual(self.corners((0, 0, 5, 1), (2, 0, 5, 1)), [((0, 0), (4, 0)), ((2, 0), (4, 0))])
        self.assertEqual(self.corners((0, 0, 5, 1), (0, 0, 5, 1)), [((0, 0), (4, 0)), ((0, 0), (4, 0))])

    def test_a_ring_and_three_legs_at_one_point(self) -> None:
        ring = ((0, 0, 5, 1), (4, 0, 5, 5), (0, 4, 5, 5), (0, 0, 1, 5))
        self.assertEqual(self.corners(*ring), [((0, 0), (0, 4), (4, 4), (4, 0), (0, 0))[::-1]])
        self.assertEqual(self.corners((0, 4, 5, 5), (4, 4, 9, 5), (4, 4, 5, 9)),
                         [((0, 4), (4, 4), (8, 4)), ((4, 4), (4, 8))])

    def test_a_leg_of_one_point_is_a_stroke_of_its_own(self) -> None:
        self.assertEqual(self.corners((3, 3, 4, 4), (3, 3, 9, 4)), [((3, 3),), ((3, 3), (8, 3))])

    def test_nets_rise(self) -> None:
        self.assertEqual(strokes.strokes_of(table_of(SAVED)),
                         [strokes.Stroke(1, ((25, 15),)), strokes.Stroke(3, ((2, 2), (2, 12), (8, 12)))])


def line(net: int, *corners: tables.Point) -> sheets.Line:
    """A line on a sheet."""
    return sheets.Line(0, net, 1, corners, corners)


class Sheets(unittest.TestCase):
    def test_the_nearest_end_is_drawn_next(self) -> None:
        lines = [line(1, (90, 0), (50, 0)), line(2, (0, 90), (10, 10)), line(3, (52, 0), (60, 60)), line(4, (9, 10))]
        ordered = sheets.by_travel(lines, (0, 0))
        self.assertEqual([(each.net, each.corners[0]) for each in ordered],
                         [(4, (9, 10)), (2, (10, 10)), (3, (60, 60)), (1, (50, 0))])
        twice = [line(2, (5, 0), (0, 5)), line(1, (5, 0), (0, 5))]
        self.assertEqual(sheets.by_travel(twice, (0, 0))[0], twice[0])

    def test_each_foil_lies_where_its_number_says(self) -> None:
        table = table_of(SAVED)
        for columns, number, corner in ((4, 0, (0, 0)), (4, 3, (360, 0)), (4, 6, (240, 90)), (2, 7, (120, 270)),
                                        (8, 7, (840, 0)), (1, 7, (0, 630)), (3, 7, (120, 180))):
            manner = sheets.Manner(pitch=(120 * MM, 90 * MM), columns=columns)
            made = sheets.sheet_of("s", [sheets.Foil(number, "a", table, MM)], manner)
            first = made.lines[0].corners[0]
            self.assertEqual((first[0] // MM - 25, first[1] // MM - 15), corner)
            rows = -(-8 // columns)
            self.assertEqual((made.wide, made.high), (columns * 120 * MM, rows * 90 * MM))
            upwards = made.placed(upwards=True).lines[0].corners[0]
            self.assertEqual(upwards, (first[0], made.high - first[1]))

    def test_a_foil_that_has_no_room_is_named(self) -> None:
        foil = sheets.Foil(5, "big", table_of(SAVED), 5 * MM)
        for pitch, said in (((120, 120), r"foil 5 \(big\) is 150 mm wide, and the pitch is 120 mm"),
                            ((150, 99), "is 100 mm high, and the pitch is 99 mm")):
            with self.assertRaisesRegex(sheets.NotPlotted, said):
                sheets.sheet_of("s", [foil], sheets.Manner(pitch=(pitch[0] * MM, pitch[1] * MM)))
        sheets.sheet_of("s", [foil], sheets.Manner(pitch=(150 * MM, 100 * MM)))


# the foil of SAVED with points of half a millimetre, by hand: its pen is 1.5 mm wide, and it is 15 by 10 mm
BY_HAND = {
    "hpgl": "IN;\nPA;\nSP1;\nPW1.5;\nLA1,4;\nPU510,90;\nPD511,90;\nPD510,90;\nPU50,350;\nPD50,150;\nPD170,150;\n"
            "PU;\nSP0;\n",
    "gerber": "G04 Key foil: keys*\n%FSLAX46Y46*%\n%MOMM*%\n%LPD*%\n%ADD10R,1.5X1.5*%\nG01*\nD10*\nG04 foil 0 net 1*\n"
              "X12750000Y2250000D03*\nG04 foil 0 net 3*\nX1250000Y8750000D02*\nX1250000Y3750000D01*\n"
              "X4250000Y3750000D01*\nM02*\n",
    "svg": '<svg xmlns="http://www.w3.org/2000/svg" width="15mm" height="10mm" viewBox="0 0 15 10">\n'
           '<g fill="none" stroke="#000000" stroke-linecap="square" stroke-linejoin="miter">\n'
           '<polyline data-foil="0" data-net="1" stroke-width="1.5" points="12.75,7.75 12.75,7.75"/>\n'
           '<polyline data-foil="0" data-net="3" stroke-width="1.5" points="1.25,1.25 1.25,6.25 4.25,6.25"/>\n'
           "</g>\n</svg>\n",
    "gcode": "(Key foil: keys)\nG21\nG90\nG0 Z2\n(pen 1.5 mm)\n(foil 0 net 1)\nG0 X12.75 Y2.25\nG1 Z0 F600\nG0 Z2\n"
             "(foil 0 net 3)\nG0 X1.25 Y8.75\nG1 Z0 F600\nG1 X1.25 Y3.75 F1200\nG1 X4.25 Y3.75 F1200\nG0 Z2\n"
             "G0 X0 Y0\nM2\n",
    "csv": "foil,of,net,stroke,x,y,x_mm,y_mm,pen_mm\n0,track,1,1,25,15,12.75,7.75,1.5\n0,track,3,2,2,2,1.25,1.25,1.5\n"
           "0,track,3,2,2,12,1.25,6.25,1.5\n0,track,3,2,8,12,4.25,6.25,1.5\n",
}


class Command(unittest.TestCase):
    def setUp(self) -> None:
        folder = tempfile.TemporaryDirectory()
        self.addCleanup(folder.cleanup)
        self.folder = pathlib.Path(folder.name)

    def text(self, name: str, content: str) -> str:
        """A text of the folder: its path."""
        path = self.folder / name
        path.write_text(content)
        return str(path)

    def programs(self, lines: str = LINES, saved: str = SAVED, said: str = "") -> Dict[str, pathlib.Path]:
        """Programs that write these lines and these bytes, or say this on standard error."""
        made = {}
        content = textform.read(saved).job.decode("latin-1") if saved else ""
        for name, written in (("job_main", (lines,)), ("save_main", (content, said))):
            made[name], folder = given.replay(*written)
            self.addCleanup(folder.cleanup)
        return made

    def run_plot(self, *words: str, programs: Dict[str, pathlib.Path], typed: str = "") -> Tuple[int, str, str]:
        """Runs the command: its status, what it prints, and what it says on standard error."""
        printed, err = io.BytesIO(), io.StringIO()
        out = io.TextIOWrapper(printed, newline="")
        with mock.patch.object(building, "built", side_effect=lambda *names: [programs[name] for name in names]), \
                mock.patch.object(sys, "stdin", io.TextIOWrapper(io.BytesIO(typed.encode()))), \
                contextlib.redirect_stdout(out), contextlib.redirect_stderr(err):
            status = command.main(words)
        return status, printed.getvalue().decode(), err.getvalue()

    def test_each_format_by_hand(self) -> None:
        for name, wanted in BY_HAND.items():
            with self.subTest(name):
                path = self.text("keys.txt", SIZED)
                self.assertEqual(self.run_plot("--format", name, path, programs=self.programs()), (0, wanted, ""))
                out = self.folder / "out"
                out.unlink(missing_ok=True)
                for _ in (1, 2):
                    done = self.run_plot("--format", name, "-o", str(out), path, programs=self.programs())
                    self.assertEqual((done, out.read_text()), ((0, "", ""), wanted))
                self.assertTrue(wanted.startswith(formats.FORMATS[name].start))

    def test_hpgl_is_what_is_written_where_nothing_is_said(self) -> None:
        self.assertEqual(self.run_plot("--mm", "0.5", typed=TEXT, programs=self.programs())[:2], (0, BY_HAND["hpgl"]))

    def test_a_size_is_wanted_and_only_one(self) -> None:
        plain, sized = self.text("plain.txt", TEXT), self.text("sized.txt", SIZED)
        for words, said in (((plain,), "plain.txt: it is not known how large a point is: give its size (--mm), or put "
                             "a line `# point: 0.25 mm` into the text"),
                            (("--mm", "0.25", sized), "a point is 0.5 mm by the text, and 0.25 mm as it is given"),
                            ((self.text("odd.txt", "# point: 5\n" + TEXT),), "write it as `# point: 0.25 mm`"),
                            (("--mm", "0,25", plain), "`0,25` has a comma"), (("--mm", "0", plain), "is no size")):
            with self.subTest(words):
                status, out, err = self.run_plot(*words, programs=self.programs())
                self.assertEqual((status, out), (4, ""))
                self.assertIn(said, err)
        self.assertEqual(self.run_plot("--mm", "0.5", sized, programs=self.programs())[0], 0)

    def test_numbers_that_hpgl_has_no_unit_for_are_rounded_and_that_is_said(self) -> None:
        status, out, err = self.run_plot("--mm", "0.33", self.text("a.txt", TEXT), programs=self.programs())
        # 2.5 points are 0.825 mm, 33 units; 17.5 points from below are 5.775 mm, 231; 4.5 of them are 59.4, so 59
        self.assertEqual(status, 0)
        self.assertIn("PU33,231;\nPD33,99;\n", out)
        self.assertIn("PU337,59;\n", out)
        self.assertIn("rounded to the nearest, by at most 0.0125 mm", err)
        status, out, err = self.run_plot("--mm", "0.02", self.text("a.txt", TEXT), programs=self.programs())
        self.assertEqual((status, out), (4, ""))
        self.assertIn("a point of 0.02 mm is smaller than the unit of hpgl, 0.025 mm", err)

    def test_nothing_is_plotted_where_a_step_was_refused(self) -> None:
        path = self.text("keys.txt", SIZED.replace("end", "track 4 2 2 9 9\nend"))
        programs = self.programs(LINES.replace("strip", "track 4 8\nstrip"))
        out = self.folder / "out"
        for words in ((), ("-o", str(out))):
            status, printed, err = self.run_plot(*words, path, programs=programs)
            self.assertEqual((status, printed, out.exists()), (3, "", False))
            for said in ("keys.txt is not plotted: correct it, or give --open", "1 of 5 steps was refused:",
                         "refused (8)", "open: net 4 from 2,2 to 9,9 (8)"):
                self.assertIn(said, err)
        status, printed, err = self.run_plot("--open", path, programs=programs)
        self.assertEqual((status, printed), (1, BY_HAND["hpgl"]))
        self.assertIn("1 of 5 steps was refused", err)
        self.assertIn("open: net 4 from 2,2 to 9,9 (8)", err)

    def test_a_net_in_parts_and_nets_that_are_short(self) -> None:
        board = "board 30 20 pen 1 0\n"
        for legs, said in (("leg 1 2 2 9 3\nleg 1 2 12 9 13\n", "in parts: net 1 has 2 parts that do not meet"),
                           ("leg 1 2 2 9 3\nleg 2 9 2 15 3\n", "short: net 1 and net 2 have ink on")):
            text = board + legs + "end\n"
            programs = self.programs("board 0\nleg 1 0\nleg %s 0\nstrip 0 0 1 1\n" % legs.splitlines()[1][4], text)
            path = self.text("a.txt", "# point: 1 mm\n" + text)
            status, out, err = self.run_plot(path, programs=programs)
            self.assertEqual((status, out), (3, ""))
            self.assertIn(said, err)
            status, out, err = self.run_plot("--open", path, programs=programs)
            self.assertEqual((status, out.count("PU")), (0, 3))
            self.assertIn(said, err)

    def test_without_a_foil_or_a_save_nothing_is_plotted(self) -> None:
        path = self.text("a.txt", SIZED)
        for programs, wanted, said in (
                (self.programs("board 1\n", "", "board 1\n"), 2, "its board was refused"),
                (self.programs(LINES, "", "save 11\n"), 3, "it was refused (11)"),
                (self.programs(LINES, SAVED.replace("2 12 9 13", "2 12 8 13")), 5, "do not agree on the foil"),
                (self.programs(LINES, SAVED.replace("leg 1 25 15 26 16\n", "")), 5, "do not agree on the foil")):
            status, out, err = self.run_plot("--open", path, programs=programs)
            self.assertEqual((status, out), (wanted, ""), err)
            self.assertIn(said, err)
        status, out, err = self.run_plot("--mm", "1", typed="bord\n", programs=self.programs())
        self.assertEqual((status, out), (2, ""))

    def test_a_file_that_is_no_plot_file_is_not_written_over(self) -> None:
        path, other = self.text("a.txt", SIZED), self.text("b.txt", "to be kept")
        for out in (path, other):
            kept = pathlib.Path(out).read_text()
            self.assertEqual(self.run_plot("-o", out, path, programs=self.programs())[0], 4)
            self.assertEqual(pathlib.Path(out).read_text(), kept)
        self.assertEqual(set(outputs.KINDS), {"job file", "picture", "plot file"})

    def plotted(self, *words: str) -> List[plot_readers.Drawn]:
        """The strokes of a sheet, in Gerber."""
        status, out, err = self.run_plot("--format", "gerber", "--mm", "0.5", *words, programs=self.programs())
        self.assertEqual(status, 0, err)
        return plot_readers.gerber(out).strokes

    def test_a_sheet_of_foils(self) -> None:
        order = [self.text(name, TEXT) for name in ("lewes.txt", "lewes-2.txt", "lewes-7.txt")]
        names = [self.text(name, TEXT) for name in ("a.txt", "b.txt", "c.txt")]
        for words, numbers in ((order, [0, 2, 7]), (names, [0, 1, 2]), (names[:1] + ["5=" + names[1]], [0, 5]),
                               (order[1:], [2, 7]), (names[:1] * 3, [0, 1, 2]), (order[1:] + names[:1], [0, 1, 2])):
            drawn = self.plotted("--pitch", "120,90", "--sheet", *words)
            self.assertEqual([stroke.foil for stroke in drawn], [number for number in numbers for _ in (1, 2)])
            first = [stroke.corners[0] for stroke in drawn[::2]]
            # the upper left corner of foil K is 120 (K % 4) from the left and 180 - 90 (K // 4) from below
            self.assertEqual(first, [(120 * MM * (k % 4) + 12_750_000, 180 * MM - 90 * MM * (k // 4) - 7_750_000)
                                     for k in numbers])

    def test_foils_with_other_pens_have_pens_of_their_own(self) -> None:
        wide, narrow = table_of(SAVED), table_of(SAVED.replace("pen 1 0", "pen 0 0"))
        foils = [sheets.Foil(0, "a", wide, MM), sheets.Foil(1, "b", narrow, MM), sheets.Foil(2, "c", wide, MM)]
        manner = sheets.Manner(pitch=(50 * MM, 50 * MM))
        drawn = formats.plot_of("s", foils, manner).content.decode()
        self.assertEqual([row for row in drawn.splitlines() if row[:2] in ("SP", "PW")],
                         ["SP2;", "PW3;", "SP1;", "PW1;", "SP2;", "PW3;", "SP0;"])
        drawn = formats.plot_of("s", foils, manner, "gerber").content.decode()
        self.assertEqual([row for row in drawn.splitlines() if "ADD" in row or row[0] == "D"],
                         ["%ADD10R,1X1*%", "%ADD11R,3X3*%", "D11*", "D10*", "D11*"])

    def test_words_that_do_not_fit(self) -> None:
        a, b = self.text("a.txt", SIZED), self.text("b.txt", SIZED)
        cases: Sequence[Tuple[Sequence[str], str]] = (
            (("--sheet", a), "--sheet and --pitch go together"), (("--pitch", "9,9", a), "go together"),
            (("--sheet", "1=" + a, b, "--pitch", "50,50"), "are both foil 1"), (("--offset", "3", a), "no pair of"),
            (("--sheet", *[a] * 9, "--pitch", "50,50"), "a sheet has 8 foils"),
            (("--format", "pdf", a), "invalid choice"),
            (("--sheet", a, b, "--pitch", "14,50"), "is 15 mm wide, and the pitch is 14 mm"),
            (("--patches", "outline", "--offset", "9999999,1", a), "no pair of lengths"),
            (("--format", "gerber", "--offset", "9999,1", a), "too large for Gerber"))
        for words, said in cases:
            with self.subTest(words):
                status, out, err = self.run_plot(*words, programs=self.programs())
                self.assertEqual((status, out), (4, ""))
                self.assertIn(said, err)

    def test_an_offset_moves_every_stroke(self) -> None:
        path = self.text("a.txt", TEXT)
        plain, moved = self.plotted(path), self.plotted("--offset", "10,2.5", path)
        self.assertEqual(moved, [stroke._replace(corners=tuple((x + 10 * MM, y + 2_500_000) for x, y in stroke.corners))
                                 for stroke in plain])


if __name__ == "__main__":
    unittest.main()
