"""Millimetres: the size of a point that a text says, and numbers of a text that are given in millimetres."""
import unittest
from typing import List, Tuple

from desk import millimetres, textform


def faults_of(text: str) -> List[Tuple[int, str]]:
    """What cannot be read of a text."""
    try:
        textform.read(text)
    except textform.Unreadable as unreadable:
        return list(unreadable.faults)
    return []


class Sizes(unittest.TestCase):
    def test_what_a_text_says(self) -> None:
        for text, size in (
                ("# point: 0.25 mm\nboard 9 9 0\nend\n", 250_000), ("board 9 9 0  # point: 0.25mm\nend\n", 250_000),
                ("# order: 4711; point: 1 MM\n", 1_000_000), ("# point: 0.00125 mm\n", 1_250),
                ("# point: 0.5 mm\n# point: 0.25 mm\n", 500_000), ("board 9 9 0  # a point\nend\n", 0),
                ("# the point: 3 mm\n", 0)):
            with self.subTest(text):
                self.assertEqual(millimetres.said(textform.lines_of(text)), size)

    def test_what_is_no_size(self) -> None:
        for said, why in (
                ("0.25", "write it as `# point: 0.25 mm`"), ("a quarter mm", "write it as `# point: 0.25 mm`"),
                ("0,25 mm", "has a comma"), ("-1 mm", "is no length"), ("0 mm", "is no size of a point"),
                ("51 mm", "is no size of a point"), ("0.000125 mm", "is no size of a point"),
                ("0.1234567 mm", "more than six decimals"), ("1e-1 mm", "is no length"), ("", "write it as")):
            with self.subTest(said), self.assertRaisesRegex(ValueError, why):
                millimetres.said([f"# point: {said}"])

    def test_lengths_are_shown_as_they_are(self) -> None:
        for word, nanometres in (("0.25", 250_000), ("30.5", 30_500_000), ("120", 120_000_000), ("0", 0),
                                 ("0.000001", 1)):
            self.assertEqual((millimetres.length(word), millimetres.shown(nanometres)), (nanometres, word))
        self.assertEqual(millimetres.shown(-125_000), "-0.125")


class Texts(unittest.TestCase):
    def test_numbers_in_millimetres_are_points(self) -> None:
        plain = "board 122 122 pen 2 1\npatch 10 8 20 18\ntrack 7 2 40 60 40\nleg 8 4 100 24 101\nend\n"
        measured = ("board 30.5mm 30.5MM pen 0.5mm 0.25mm  # point: 0.25 mm\npatch 2.5mm 2mm 5mm 4.5mm\n"
                    "track 7 0.5mm 10mm 15mm 40\nleg 8 1mm 25mm 6mm 25.25mm\nend\n")
        self.assertEqual(textform.read(measured).job, textform.read(plain).job)
        reach = textform.read("# point: 0.5 mm\nboard 5mm 5mm 1mm\nend\n").job
        self.assertEqual(reach, textform.read("board 10 10 2\nend\n").job)

    def test_what_does_not_fall_on_a_point_is_named_with_the_nearest_two(self) -> None:
        text = "# point: 0.25 mm\nboard 30.6mm 30.5mm 0\npatch 0.1mm 0 1 1\nend\n"
        self.assertEqual(faults_of(text), [
            (2, "`30.6mm` does not fall on a point: the nearest two are 30.5mm (122) and 30.75mm (123)"),
            (3, "`0.1mm` does not fall on a point: the nearest two are 0mm (0) and 0.25mm (1)")])

    def test_a_text_in_millimetres_without_a_size(self) -> None:
        (number, why), = faults_of("board 30.5mm 30 0\nend\n")
        self.assertEqual((number, why), (1, f"`30.5mm` is in millimetres, and {millimetres.NO_SIZE}"))
        self.assertEqual(textform.read("board 5mm 5 0\nend\n", 500_000).job, textform.read("board 10 5 0\nend\n").job)
        (_, why), = faults_of("# point: x mm\nboard 30.5mm 30 0\nend\n")
        self.assertIn("`x` is no length in millimetres", why)

    def test_nets_and_other_words_are_never_in_millimetres(self) -> None:
        for line, why in (("lift 1mm", "`1mm` is no whole number"), ("track 1mm 0 0 1 1", "`1mm` is no whole number"),
                          ("leg 1mm 0 0 1 1", "`1mm` is no whole number"), ("patch 1cm 0 0 1", "`1cm` is no whole"),
                          ("patch 1.2.3mm 0 0 1", "`1.2.3` is no length"), ("patch 1,5mm 0 0 1", "a comma between"),
                          ("bytes 00 times 5mm", "`5mm` is no whole number"),
                          ("patch 40000mm 0 0 1", "`160000` is no whole number from 0 to 65535")):
            with self.subTest(line):
                (number, told), = faults_of(f"# point: 0.25 mm\nboard 9 9 0\n{line}\nend\n")
                self.assertEqual(number, 3)
                self.assertIn(why, told)


if __name__ == "__main__":
    unittest.main()
