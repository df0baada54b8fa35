"""The words: README's table, what is said of each refusal, and what README shows."""
import unittest

from desk import accounts, console, lines, program, refusals, textform, words
from desk.tests import given

README = refusals.README.read_text(encoding="utf-8")
TABLE = refusals.table_of(README)
# a text and the lines that it writes, for each number that the job program has for a step
STEPS = {
    1: ("board 0 1 0", "board 1"), 2: ("board 1 1 16", "board 2"), 20: ("board 9 9 pen 8 0", "board 20"),
    3: ("patch 1 1 1 2", "patch 3"), 4: ("track 0 0 0 0 0", "track 0 4"), 5: ("track 1 0 0 0 0", "track 1 5"),
    6: ("lift 1", "lift 1 6"), 7: ("track 1 9 9 9 9", "track 1 7"), 8: ("track 1 0 0 0 0", "track 1 8"),
    9: ("track 1 0 0 0 0", "track 1 9"), 10: ("leg 1 0 0 1 1", "leg 1 10"), 11: ("lift 1", "lift 1 11"),
}


def printed(text, written):
    """What is printed for a text whose job writes these lines."""
    read = textform.read(text)
    return words.page(words.rows(read, lines.run_of(read.job, written), TABLE))


def words_in(page):
    """The words of a page, however they are broken into lines."""
    return " ".join(page.split())


class Table(unittest.TestCase):
    def test_each_number_of_the_job_program_has_its_words(self):
        for number in list(STEPS) + [14, 15, 16, 17, 18]:
            with self.subTest(number):
                says, to_do = TABLE[number]
                self.assertTrue(says and to_do)
                self.assertNotIn("the same", to_do)

    def test_rows_for_several_numbers(self):
        self.assertEqual(TABLE[12], TABLE[13])

    def test_the_table_is_found_among_others(self):
        head = "| N | What it says | What to do |\n|---|---|---|\n"
        text = "| N | x |\n|---|---|\n| 1 | no |\n\n" + head + "| 1 | a | b |\n| 2, 3 | c | |\n\n| 9 | d | e |\n"
        self.assertEqual(refusals.table_of(text), {1: ("a", "b"), 2: ("c", ""), 3: ("c", "")})


class Refusals(unittest.TestCase):
    def test_each_refusal_of_a_step(self):
        for number, (step, line) in STEPS.items():
            with self.subTest(number):
                begun, told = ("", "") if step.startswith("board") else ("board 5 5 0\n", "board 0\n")
                page = words_in(printed(begun + step + "\nend\n", told + line + "\n"))
                says, to_do = TABLE[number]
                self.assertIn("%s refused (%d): %s what to do: %s" % (step, number, says, to_do), page)

    def test_each_fault_of_a_file(self):
        for text, written, number, where in (
                ("board 5 5 0\nbytes 04 01", "board 0\nfile 14\n", 14, "2 bytes 04 01 at fault"),
                ("board 5 5 0\n", "board 0\nfile 14\n", 14, "the end of the file at fault"),
                ("", "file 14\n", 14, "the end of the file at fault"),
                ("board 5 5 0\nbytes 40\nend", "board 0\nfile 15\n", 15, "2 bytes 40 at fault"),
                ("patch 0 0 1 1\nend", "file 16\n", 16, "1 patch 0 0 1 1 at fault"),
                ("board 5 5 0\nboard 5 5 0\nend", "board 0\nfile 16\n", 16, "2 board 5 5 0 at fault"),
                ("board 5 5 0\nend\nlift 1", "board 0\nfile 17\n", 17, "2 end at fault"),
                ("board 5 5 0\nbytes 00 times 60000", "file 18\n", 18, "the whole file at fault")):
            with self.subTest(text):
                page = words_in(printed(text, written))
                says, to_do = TABLE[number]
                self.assertIn("%s (%d): %s what to do: %s" % (where, number, says, to_do), page)

    def test_a_number_without_a_row(self):
        read = textform.read("board 5 5 0\nlift 1\nend")
        rows = words.rows(read, lines.run_of(read.job, "board 0\nlift 1 77\n"), TABLE)
        self.assertEqual(rows[1].words, ["refused (77): README's table has no row for this number"])


class Pages(unittest.TestCase):
    def test_what_was_accepted(self):
        text = "board 9 9 pen 1 2, track 1 3 3 5 5\ntrack 2 4 4 4 4\npatch 0 0 1 1, lift 1, leg 1 0 0 1 5\nend\n"
        written = "board 0\ntrack 1 0 1 3,3 5,3 5,5\ntrack 2 0 0 4,4\npatch 0\nlift 1 0\nleg 1 0\n"
        written += "strip 0 0 3 1\nstrip 8 8 9 9\n"
        self.assertEqual(printed(text, written), (
            "    1  board 9 9 pen 1 2  begun: 9 by 9 points, a pen of half width 1 with gap 2\n"
            "       track 1 3 3 5 5    laid: 1 bend, length 4\n"
            "    2  track 2 4 4 4 4    laid: no bends, length 0\n"
            "    3  patch 0 0 1 1      drawn\n"
            "       lift 1             lifted\n"
            "       leg 1 0 0 1 5      put back as it was booked\n"
            "    4  end                4 points free, in 2 strips\n"))

    def test_each_line_of_a_text_has_its_row(self):
        for name in set(given.NAMES) - {"too-long"}:
            with self.subTest(name):
                read = textform.read(given.text_of(name))
                rows = words.rows(read, given.run_of(name), TABLE)
                self.assertEqual({row.number for row in rows} - {None}, {line.number for line in read.lines})

    def test_what_was_not_done_is_told(self):
        page = printed("board 0 1 0, patch 0 0 1 1\nlift 1\nend\n", "board 1\n")
        self.assertEqual(page.count("not done"), 3)

    def test_a_record_on_several_lines(self):
        page = printed("bytes 01 05 00 05\nbytes 00 00 00\nend\n", "board 0\nstrip 0 0 5 5\n")
        self.assertIn("    1  board 5 5 0     begun", page)
        self.assertIn("    2  bytes 00 00 00  part of the line above\n", page)

    def test_lines_are_not_too_long(self):
        for name in given.NAMES:
            read = textform.read(given.text_of(name))
            rows = words.rows(read, given.run_of(name), TABLE)
            for width in (40, 60, 80, console.WIDTH):
                page = words.page(rows, width)
                self.assertLessEqual(max(map(len, page.splitlines())), width)
                self.assertEqual(words_in(page), words_in(words.page(rows)))

    def test_readme_shows_a_text_and_its_picture(self):
        self.assertIn("".join("    %s\n" % line for line in given.text_of("less-ink").splitlines()), README)
        self.assertTrue((program.ROOT / "docs" / "less-ink.svg").exists())

    @given.with_program
    def test_readme_shows_what_is_printed(self):
        shown = accounts.account_of(textform.read(given.text_of("less-ink")), given.BUILT).page(TABLE)
        self.assertIn("".join(("    " + line).rstrip() + "\n" for line in shown.splitlines()), README)


if __name__ == "__main__":
    unittest.main()
