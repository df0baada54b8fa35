"""The text form: what it reads, what it turns down and how, and the way back from a job."""
import unittest

from desk import job, textform
from desk.tests import given


class Reading(unittest.TestCase):
    def unreadable(self, text):
        with self.assertRaises(textform.Unreadable) as raised:
            textform.read(text)
        return raised.exception.faults

    def test_samples_make_their_jobs(self):
        for name in given.NAMES:
            with self.subTest(name):
                made = textform.read(given.text_of(name)).job
                self.assertEqual(made, given.SAMPLES.joinpath(name + ".job").read_bytes())

    def test_a_board_with_a_pen_has_bits_0_and_5(self):
        made = textform.read("board 20 20 pen 2 1, patch 8 8 10 10\nend").job
        self.assertEqual(made.hex(), "231400140000000800080" + "00a000a000200010000")

    def test_lines_have_their_places(self):
        text = textform.read("# one\nboard 6 4 0\n\n  patch 2 0 3 3 , lift 7 # two\r\nend")
        places = [(line.number, line.place, line.after) for line in text.lines]
        self.assertEqual(places, [(2, 0, 7), (4, 7, 18), (5, 18, 19)])
        self.assertEqual([line.remark for line in text.lines], ["", "two", ""])

    def test_what_cannot_be_read_is_told_by_its_line(self):
        for line, message in (
                ("trak 1 0 0 1 1", "`trak` is none of the words board, patch, track, lift, leg, end, bytes"),
                ("track 1 0 0 1", "numbers after `track`: 4, not 5: track NET SX SY TX TY"),
                ("lift", "numbers after `lift`: 0, not 1: lift NET"),
                ("board 5 5", "numbers after `board`: 2, not 3: board W H REACH, or board W H pen HALF GAP"),
                ("board 5 5 pen 1", "numbers after `pen`: 1, not 2: board W H pen HALF GAP"),
                ("lift x", "`x` is no whole number from 0 to 65535"),
                ("lift -1", "`-1` is no whole number from 0 to 65535"),
                ("lift 65536", "`65536` is no whole number from 0 to 65535"),
                ("lift 1_0", "`1_0` is no whole number from 0 to 65535"),
                ("lift \u0663", "`\u0663` is no whole number from 0 to 65535"),
                ("lift 07", "`07` begins with a 0: write it without"),
                ("lift 1, patch 0 0 1 1", "`patch` after `lift`: give it a line of its own; on one line"),
                ("lift 1, lift 2", "`lift` after `lift`: give it a line of its own"),
                ("lift 1,", "no step on one side of a comma"),
                ("lift 1,000", "a comma between numbers, in `1,000`: a comma parts steps, blanks part numbers"),
                ("track 1 1,4 7,4", "a comma between numbers, in `1,4`"),
                ("patch 0 0 1 1, 2", "a comma between numbers, in `1, 2`"),
                (", lift 1", "no step on one side of a comma"),
                ("end lift 1", "`end` stands on a line of its own"),
                ("lift 1, end", "`end` is none of the words"),
                ("bytes", "`bytes` wants bytes of two hexadecimal digits"),
                ("bytes 0 1", "`bytes` wants bytes of two hexadecimal digits"),
                ("bytes 00 times x", "`x` is no whole number"),
                ("lift \x01", "`?` is no whole number")):
            with self.subTest(line):
                (number, told), = self.unreadable("board 5 5 0\n\n" + line + "\nend")
                self.assertEqual(number, 3)
                self.assertIn(message, told)

    def test_every_line_that_cannot_be_read_is_told(self):
        self.assertEqual([number for number, _ in self.unreadable("bord\nboard 1 1 0\nlift\nend")], [1, 3])

    def test_bytes_that_are_no_text(self):
        (number, told), = self.unreadable(b"board 1 1 0\nlift \xff\nend")
        self.assertEqual((number, told), (2, "a byte ff, which is no text in UTF-8"))

    def test_words_in_capitals(self):
        plain = textform.read("board 20 20 pen 2 1, patch 8 8 10 10  # key: Up\nbytes 0a times 2\nend\n")
        for text in ("Board 20 20 Pen 2 1, Patch 8 8 10 10  # key: Up\nBytes 0A Times 2\nEnd\n",
                     "BOARD 20 20 PEN 2 1, PATCH 8 8 10 10  # key: Up\nBYTES 0A TIMES 2\nEND\n"):
            self.assertEqual(textform.read(text), plain)
        self.assertIn("`trac\u212a` is none", self.unreadable("trac\u212a 1 0 0 1 1")[0][1])

    def test_a_text_in_utf_16_is_told_from_junk(self):
        wide = "this is text in UTF-16: save it as UTF-8"
        for code in ("utf-16", "utf-16-le", "utf-16-be"):
            for text in ("board 1 1 0\nend\n", "# Größe\r\nboard 1 1 0\r\nend\r\n"):
                self.assertEqual(self.unreadable(text.encode(code)), [(1, wide)])
        self.assertEqual(self.unreadable(b"\xffboard")[0][1], "a byte ff, which is no text in UTF-8")

    def test_no_job_is_taken_for_utf_16(self):
        for path in sorted(given.SAMPLES.glob("*.job")):
            self.assertFalse(textform.is_wide(path.read_bytes()), path.name)
        for chance in given.seeds(300):
            self.assertFalse(textform.is_wide(textform.read(given.random_text(chance, largest=4096)).job))

    def test_lines_end_as_editors_end_them(self):
        for text in (b"board 1 1 0\r\nend\r\n", b"board 1 1 0\rend\r", b"\xef\xbb\xbfboard 1 1 0\nend"):
            self.assertEqual(textform.read(text).job.hex(), "0101000100000000")


class RoundTrips(unittest.TestCase):
    def test_text_to_job_to_text(self):
        for chance in given.seeds(400):
            text = given.random_text(chance, largest=chance.choice([9, 300, 65535 - 3]))
            shown = textform.show(textform.read(text).job)
            self.assertEqual(shown.splitlines(), given.plain_text(text))

    def test_samples_to_job_to_text(self):
        for name in given.NAMES:
            made = textform.read(given.text_of(name)).job
            if job.file_number(made) == 0 or name == "cut-short":
                with self.subTest(name):
                    self.assertEqual(given.plain_text(textform.show(made)), given.plain_text(given.text_of(name)))

    def test_any_file_to_text_to_the_same_file(self):
        for chance in given.seeds(1500):
            made = given.random_file(chance)
            self.assertEqual(textform.read(textform.show(made)).job, made)
        for made in (b"", b"\0", b"\1", bytes(70_000), bytes(range(256)) * 300):
            self.assertEqual(textform.read(textform.show(made)).job, made)

    def test_damage_is_shown_with_its_number(self):
        for text, shown in (
                ("board 60 40 2\nbytes 04 01 00 08 00\n", "board 60 40 2\n# file 14: why\nbytes 04 01 00 08 00\n"),
                ("board 9 9 0\nlift 1\n", "board 9 9 0\nlift 1\n# file 14: why\n"),
                ("board 9 9 0\nbytes 40\nend\n", "board 9 9 0\n# file 15: why\nbytes 40 00\n"),
                ("lift 1\nend\n", "# file 16: why\nbytes 08 01 00 00\n"),
                ("board 9 9 0\nboard 9 9 0\n", "board 9 9 0\n# file 16: why\nbytes 01 09 00 09 00 00 00\n"),
                ("board 9 9 0\nend\nlift 1\n", "board 9 9 0\nend\n# file 17: why\nbytes 08 01 00\n"),
                ("board 9 9 0\nbytes 00 times 59994", "# file 18: why\nboard 9 9 0\nend\nbytes 00 times 59993\n")):
            with self.subTest(text):
                self.assertEqual(textform.show(textform.read(text).job, lambda number: "why"), shown)
        self.assertEqual(textform.show(b""), "# file 14\n")

    def test_an_unused_reach_is_kept(self):
        made = bytes.fromhex("2114001400ffff0200010000")
        shown = textform.show(made)
        self.assertIn("# board 20 20 pen 2 1, with a reach that is not used", shown)
        self.assertEqual(textform.read(shown).job, made)


if __name__ == "__main__":
    unittest.main()
