"""Names in remarks: which step each names, and where it shows."""
import unittest

from desk import accounts, foils, lines, names, refusals, textform, words
from desk.tests import given

TABLE = refusals.readme_table()


class Names(unittest.TestCase):
    def names(self, *steps):
        return names.names_of(textform.read("board 9 9 0\n" + "".join(step + "\n" for step in steps) + "end\n"))

    def test_which_step_is_named(self):
        self.assertEqual(self.names("patch 1 1 2 2 # key: Page on", "track 1 0 0 0 8 # net:Up"),
                         {(7, "patch"): "Page on", (16, "track"): "Up"})
        self.assertEqual(self.names("patch 1 1 2 2, track 1 0 0 0 8 # key: Page on ; net: Up;"),
                         {(7, "patch"): "Page on", (7, "track"): "Up"})
        self.assertEqual(self.names("leg 1 0 0 0 8  # net: Up"), {(7, "leg"): "Up"})

    def test_other_remarks_name_nothing(self):
        for remark in ("the key: Up", "8: track 1 is on its end", "key Up", "key:", "net:  ;", "keys: Up"):
            self.assertEqual(self.names("patch 1 1 2 2, track 1 0 0 0 8 # " + remark), {})

    def test_names_that_name_nothing_are_told(self):
        text = textform.read("# net: a heading\nboard 9 9 0 # key: a\npatch 1 1 2 2 # net: b\nlift 1 # net: c\n"
                             "end # key: d\n")
        self.assertEqual(names.strays(text), [
            (2, "`key: a` names no patch: there is none on this line"),
            (3, "`net: b` names no track: there is none on this line"),
            (4, "`net: c` names no track: there is none on this line"),
            (5, "`key: d` names no patch: there is none on this line")])
        self.assertEqual(names.names_of(text), {})

    def test_a_name_is_made_plain(self):
        self.assertEqual(names.plain("  Page\t on\x07 "), "Page on")
        self.assertEqual(names.plain("x" * 41), "x" * 38 + "..")
        self.assertEqual(names.plain("Größer <&>"), "Größer <&>")

    def test_the_job_does_not_change(self):
        plain, named = "board 9 9 0, patch 1 1 2 2\nend\n", "board 9 9 0, patch 1 1 2 2 # key: Up\nend\n"
        self.assertEqual(textform.read(plain).job, textform.read(named).job)

    def foil(self, text, written):
        read = textform.read(text)
        return foils.foil_of(lines.run_of(read.job, written), names.names_of(read))

    def test_a_foil_has_its_names(self):
        foil = self.foil("board 9 9 0\npatch 1 1 2 2 # key: A\npatch 3 3 4 4\ntrack 1 0 0 2 0 # net: One\n"
                         "track 2 0 2 2 2 # net: Two\nend\n",
                         "board 0\npatch 0\npatch 0\ntrack 1 0 0 0,0 2,0\ntrack 2 9\n")
        self.assertEqual(foil.keys, {(1, 1, 2, 2): "A"})
        self.assertEqual(([net.name for net in foil.nets], [track.name for track in foil.refused]), (["One"], ["Two"]))

    def test_a_net_keeps_its_name_where_it_is_laid_again(self):
        foil = self.foil("board 9 9 0\ntrack 1 0 0 8 0 # net: One\ntrack 1 0 0 2 0\nend\n",
                         "board 0\ntrack 1 9\ntrack 1 0 0 0,0 2,0\n")
        self.assertEqual(foil.nets[0].name, "One")

    def test_a_track_that_was_refused_gives_its_name_to_no_other(self):
        foil = self.foil("board 9 9 0\ntrack 1 0 0 2 0 # net: Up\ntrack 1 0 4 2 4 # net: Down\nend\n",
                         "board 0\ntrack 1 0 0 0,0 2,0\ntrack 1 5\n")
        self.assertEqual((foil.nets[0].name, foil.refused[0].name), ("Up", "Down"))

    def test_words(self):
        read = textform.read("board 9 9 0\npatch 1 1 2 2 # key: A\ntrack 1 0 0 2 0 # net: One\nend\n")
        run = lines.run_of(read.job, "board 0\npatch 0\ntrack 1 0 0 0,0 2,0\n")
        page = words.page(words.rows(read, run, TABLE, names.names_of(read)))
        self.assertIn('patch 1 1 2 2    "A" drawn\n', page)
        self.assertIn('track 1 0 0 2 0  "One" laid: no bends, length 2\n', page)

    def test_words_of_a_net_that_is_laid_again(self):
        path, folder = given.replay("board 0\ntrack 1 0 0 0,0 2,0\nlift 1 0\ntrack 1 0 0 0,0 2,0\n")
        self.addCleanup(folder.cleanup)
        text = textform.read("board 9 9 0\ntrack 1 0 0 2 0 # net: One\nlift 1\ntrack 1 0 0 2 0\nend\n")
        self.assertEqual(accounts.account_of(text, path).page(TABLE).count('"One" l'), 3)


if __name__ == "__main__":
    unittest.main()
