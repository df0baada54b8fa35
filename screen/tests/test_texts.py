"""What a click writes into a text: only what is meant, and all else stays as it was typed."""
import unittest

from desk import textform
from desk.tests import given as jobs
from screen import texts
from screen.tests import given


class Lines(unittest.TestCase):
    def test_appended_before_the_end(self):
        text = "board 9 9 0  # why\n\n# a remark\nend  # done\n\n# after\n"
        self.assertEqual(texts.appended(text, ["lift 1"]),
                         "board 9 9 0  # why\n\n# a remark\nlift 1\nend  # done\n\n# after\n")
        for source in ("board 9 9 0\n", "", "board 9 9 0\nbytes 00\n"):
            with self.assertRaises(texts.Unchangeable):
                texts.appended(source, ["lift 1"])

    def test_appended_to_random_texts(self):
        for chance in given.chances(200):
            text = jobs.random_text(chance)
            job = textform.read(text).job
            self.assertEqual(textform.read(texts.appended(text, ["lift 7"])).job, job[:-1] + b"\x08\x07\x00\x00")
            self.assertEqual(textform.read(texts.joined(texts.lines_of(text))).job, job)

    def test_steps_of_a_line(self):
        line = "board 9 9 0 ,patch 1 1 2 2,  lift 3   # key: on; rest"
        drop = lambda word: lambda words: None if words[0] == word else words
        self.assertEqual(texts.with_steps(line, lambda words: words), line)
        self.assertEqual(texts.with_steps(line, drop("lift")), "board 9 9 0, patch 1 1 2 2   # key: on; rest")
        self.assertIsNone(texts.with_steps("lift 3 # so", drop("lift")))

    def test_names(self):
        self.assertEqual(texts.named("patch 1 1 2 2", "key", "on"), "patch 1 1 2 2  # key: on")
        self.assertEqual(texts.named("patch 1 1 2 2 # key: off; net: x; why", "key", "on"),
                         "patch 1 1 2 2  # key: on; net: x; why")
        self.assertEqual(texts.named("patch 1 1 2 2  # key: off", "key", ""), "patch 1 1 2 2")
        self.assertEqual(texts.good_name("a;b\n#c"), "a,b #c")

    def test_ink(self):
        text = texts.inked("board 9 9 0\nend\n", {"sheet": 0.5, "bend": 1.0, "width": None, "dead": 50.0})
        self.assertEqual(text, "# ink: sheet 0.5 bend 1 dead 50\nboard 9 9 0\nend\n")
        self.assertEqual(texts.ink_of(text), {"sheet": 0.5, "bend": 1.0, "width": None, "dead": 50.0})
        self.assertEqual(texts.inked(text, {}), "board 9 9 0\nend\n")
        self.assertEqual(texts.ink_of("# ink: sheet x bend\n")["sheet"], None)

    def test_boards(self):
        self.assertEqual(texts.board_line(9, 8, 0, 2), "board 9 8 2")
        self.assertEqual(texts.board_line(9, 8, 1, 2), "board 9 8 pen 1 2")
        self.assertEqual(texts.reboarded("\nboard 1 1 0, lift 3  # x\nend\n", 2, "board 9 8 2"),
                         "\nboard 9 8 2, lift 3  # x\nend\n")
