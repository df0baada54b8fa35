"""The command for orders: what is in a folder, what is said, and the page for the carton. Programs that write stored
lines stand for the proved ones, but for those tests that run where these are built."""
import base64
import contextlib
import errno
import html
import io
import os
import pathlib
import re
import subprocess
import sys
import tempfile
import unittest
import xml.etree.ElementTree as ET
from typing import Dict, List, Optional, Tuple
from unittest import mock

from desk import building, folders, orders, outputs, program, textform
from desk.tests import given, small_disk, test_answers

KEYS = """board 60 40 0
patch 30 10 40 20      # key: Page on & <off>
track 7 5 5 20 5       # net: to the pins
track 8 0 0 35 15      # net: Light
patch 0 0 0 0          # net: Nothing
end
"""
LINES = "board 0\npatch 0\ntrack 7 0 0 5,5 20,5\ntrack 8 8\npatch 3\nstrip 0 0 60 5\n"
SLIP = "  7    1      15     5     5    \n"
OHMS = "ohms 7 0 400c000000000000\n"
INK = ("--sheet", "0.5", "--bend", "0.5")
ALL = ["keys-ohms.txt", "keys-slip.txt", "keys-words.txt", "keys.html", "keys.job", "keys.svg", "keys.txt"]
BUILT = {name: given.BUILT.with_name(name) for name in ("job_main", "slip_main", "ohms_main")}


def slip_rows(page: str) -> List[Tuple[str, str]]:
    """The lines of the slip on a carton's page, each with the name beside it."""
    body = re.search('<table class="slip">.*?<tbody>(.*?)</tbody>', page, re.S)[1]
    rows = re.findall("<tr><td>(.*?)</td><td>(.*?)</td></tr>", body)
    return [(html.unescape(line) + "\n", html.unescape(name)) for line, name in rows]


class Folder(unittest.TestCase):
    def setUp(self):
        folder = tempfile.TemporaryDirectory()
        self.addCleanup(folder.cleanup)
        self.folder = pathlib.Path(folder.name)
        self.to = self.folder / "today"

    def text(self, name, content=KEYS):
        """A text: its path."""
        path = self.folder / name
        path.parent.mkdir(parents=True, exist_ok=True)
        path.write_text(content)
        return path

    def stand_in(self, job_main=(LINES,), slip_main=(SLIP,), ohms_main=(OHMS,), save_main=("",)):
        """Programs that write these lines, and say these on standard error."""
        made = {}
        for name, written in (("job_main", job_main), ("slip_main", slip_main), ("ohms_main", ohms_main),
                              ("save_main", save_main)):
            made[name], folder = given.replay(*written)
            self.addCleanup(folder.cleanup)
        return made

    def run_order(self, *words, programs=None):
        """Runs the command: its status, what it prints, and what it says on standard error."""
        programs, out, err = programs or self.stand_in(), io.StringIO(), io.StringIO()
        with mock.patch.object(building, "built", side_effect=lambda *names: [programs[name] for name in names]), \
                contextlib.redirect_stdout(out), contextlib.redirect_stderr(err):
            status = orders.main(["--to", str(self.to), "--date", "2026-11-17", *map(str, words)])
        return status, out.getvalue(), err.getvalue()

    def files(self, name="keys"):
        """The names of what is in an order's folder."""
        return sorted(path.name for path in self.to.joinpath(name).glob("*"))

    def made(self, name):
        """What is in a file of the order of keys."""
        return self.to.joinpath("keys", name).read_text(encoding="utf-8")


class Orders(Folder):
    def test_all_of_an_order_stands_beside_each_other(self):
        status, out, err = self.run_order(*INK, self.text("keys.txt"))
        self.assertEqual((status, self.files()), (1, ALL))
        self.assertEqual(out, "%s: 2 of 5 steps were refused\n    open: net 8 (Light) from 0,0 to 35,15 (8)\n"
                              "    not on the foil: patch 0 0 0 0 (3)\n" % (self.to / "keys"))
        self.assertIn("keys.txt, line 5: `net: Nothing` names no track", err)
        self.assertEqual(self.made("keys-slip.txt"), SLIP)
        self.assertIn("net   7  3.500 ohms\n", self.made("keys-ohms.txt"))
        self.assertIn('"to the pins" laid: no bends, length 15\n', self.made("keys-words.txt"))
        self.assertIn("\ncheck list:\n       open: net 8 (Light)", self.made("keys-words.txt"))
        self.assertIn("7 to the pins", [e.text for e in ET.fromstring(self.made("keys.svg")).iter()])

    def test_a_text_that_says_how_large_a_point_is_has_a_plot_file(self) -> None:
        text = "# point: 0.5 mm\nboard 9 9 0\ntrack 7 1 1 5 1\nend\n"
        saved = textform.read("board 9 9 0\nleg 7 1 1 6 2\nend\n").job.decode("latin-1")
        programs = self.stand_in(("board 0\ntrack 7 0 0 1,1 5,1\nstrip 0 0 9 1\n",), save_main=(saved,))
        status, _, err = self.run_order(self.text("keys.txt", text), programs=programs)
        self.assertEqual((status, "keys.hpgl" in self.files(), "plot" in err), (0, True, False))
        # the first row of points but one, from 1.5 to 5.5 points of half a millimetre, 7.5 points above the foot
        self.assertIn("PW0.5;\nLA1,4;\nPU30,150;\nPD110,150;\n", self.made("keys.hpgl"))
        status, _, err = self.run_order(self.text("keys.txt", text[16:]), "--replace", programs=programs)
        self.assertEqual((status, "keys.hpgl" in self.files(), "plot" in err), (0, False, False))

    def test_a_foil_that_is_not_plotted_has_no_plot_file(self) -> None:
        saved = textform.read("board 60 40 0\npatch 30 10 40 20\nleg 7 5 5 21 6\nend\n").job.decode("latin-1")
        for size, why in (("0.5 mm", "2 of 5 steps were refused"), ("5", "2 of 5 steps were refused")):
            status, _, err = self.run_order(self.text("keys.txt", f"# point: {size}\n{KEYS}"), "--replace",
                                            programs=self.stand_in(save_main=(saved,)))
            self.assertEqual((status, "keys.hpgl" in self.files()), (1, False))
            self.assertIn(f"keys: there is no plot file, since {why}", err)

    def test_names_do_not_change_the_job(self):
        plain = "".join(line.split("#")[0] + "\n" for line in KEYS.splitlines())
        self.run_order(self.text("keys.txt"), self.text("plain.txt", plain))
        self.assertEqual(self.to.joinpath("keys", "keys.job").read_bytes(),
                         self.to.joinpath("plain", "plain.job").read_bytes())

    def test_several_texts_and_the_gravest_status(self):
        whole = self.text("whole.txt", "board 9 9 0\nend\n")
        programs = self.stand_in(("board 0\nstrip 0 0 9 9\n",), ("",))
        self.assertEqual(self.run_order(whole, programs=programs)[:2],
                         (0, "%s: every step was accepted\n" % (self.to / "whole")))
        bad = self.text("bad.txt", "bord 9 9 0\n")
        status, out, err = self.run_order(bad, self.text("keys.txt"))
        self.assertEqual((status, out.count("\n"), self.files("bad"), len(self.files())), (2, 4, ["bad.txt"], 6))
        self.assertIn("bad.txt, line 1: `bord` is none of the words", err)
        self.assertEqual(sorted([2, 6, 1, 0, 4, 3], key=orders.GRAVEST.index), [4, 2, 3, 1, 6, 0])

    def test_no_ohms_without_the_ink(self):
        _, _, err = self.run_order(self.text("keys.txt"))
        self.assertEqual(self.files(), ALL[1:])
        self.assertEqual(err.splitlines()[-1], orders.NO_INK)

    def test_ohms_that_are_refused(self):
        status, out, _ = self.run_order("--sheet", "0", "--bend", "0.5", self.text("keys.txt"),
                                        programs=self.stand_in(ohms_main=("ohms 7 22\n",)))
        self.assertEqual((status, self.files()), (3, ALL[1:]))
        self.assertIn("\n    no ohms, since the ink was refused (22): --sheet 0: ", out)

    def test_dead_nets(self):
        text = self.text("keys.txt", "board 60 40 0\ntrack 7 5 5 20 5\nend\n")
        programs = self.stand_in(("board 0\ntrack 7 0 0 5,5 20,5\nstrip 0 0 60 5\n",))
        status, out, _ = self.run_order(*INK, "--dead", "3", text, programs=programs)
        told = "dead: 1 net is dead, with more than 3 ohms: 7"
        self.assertEqual((status, out.splitlines()[1:]), (6, ["    " + told]))
        self.assertIn("<li>%s</li>" % told, self.made("keys.html"))

    def test_nothing_of_an_earlier_run_is_left(self):
        path = self.text("keys.txt")
        self.run_order(*INK, path)
        self.to.joinpath("keys", "note.txt").write_text("by hand")
        self.to.joinpath("keys", "more").mkdir()
        self.to.joinpath("keys", "more", "note.txt").write_text("by hand too")
        mine = ["more", "note.txt"]
        for content, written, left in (
                ("bord 1 1 0\n", LINES, ["keys.txt"]),
                ("board 60 40 0\n", "board 0\nfile 14\n", ["keys-words.txt", "keys.job", "keys.txt"])):
            path.write_text(KEYS)
            self.run_order(*INK, "--replace", path)
            self.assertEqual(self.files(), sorted(ALL + mine))
            path.write_text(content)
            status, out, err = self.run_order("--replace", path, programs=self.stand_in((written,), ("", "file 14\n")))
            self.assertEqual((status, self.files()), (2, sorted(left + mine)), out + err)
            self.assertEqual(self.made("keys.txt"), content)
        self.assertEqual((self.made("note.txt"), self.made("more/note.txt")), ("by hand", "by hand too"))

    def test_a_text_without_a_foil(self):
        path = self.text("keys.txt", "board 0 0 0\nend\n")
        status, out, _ = self.run_order(path, programs=self.stand_in(("board 1\n",)))
        self.assertEqual((status, out), (2, "%s: there is no foil, and its words say why\n" % (self.to / "keys")))
        self.assertIn("refused (1)", self.made("keys-words.txt"))

    def test_texts_of_one_name(self):
        status, out, err = self.run_order(self.text("a/keys.txt"), self.text("b/keys.txt"))
        self.assertEqual((status, out, self.to.exists()), (4, "", False))
        self.assertIn("have one name", err)

    def test_nothing_is_written_over_what_is_given(self):
        path = self.text("today/keys/keys.job")
        status, out, err = self.run_order(path)
        self.assertEqual((status, out, path.read_text()), (4, "", KEYS))
        self.assertIn("keys.job would be written over", err)

    def test_a_text_that_is_not_there(self):
        status, out, err = self.run_order(self.text("keys.txt"), self.folder / "none.txt")
        self.assertEqual((status, out, self.to.exists()), (4, "", False))
        self.assertIn("none.txt: No such file", err)

    def test_a_folder_that_cannot_be_made(self):
        self.to.write_text("a file")
        status, _, err = self.run_order(self.text("keys.txt"))
        self.assertEqual(status, 4)
        self.assertNotIn("a mistake", err)

    def test_the_text_is_kept(self) -> None:
        path = self.text("keys.txt", "\ufeff# for Lewes\r\n" + KEYS.replace("\n", "\r\n"))
        self.run_order(path)
        self.assertEqual(self.made("keys.txt"), "# for Lewes\n" + KEYS)
        self.run_order(*INK, "--dead", "9", "--replace", path)
        self.assertEqual(self.made("keys.txt"), "# for Lewes\n" + KEYS + "# ink: sheet 0.5 bend 0.5 dead 9\n")
        self.assertIn("\n    6  patch 0 0 0 0", "\n" + self.made("keys-words.txt"))

    def test_the_ink_of_the_text(self) -> None:
        _, _, err = self.run_order(self.text("keys.txt", KEYS + "# ink: sheet 0.5 bend 0.5\n"))
        self.assertIn("net   7  3.500 ohms\n", self.made("keys-ohms.txt"))
        self.assertNotIn(orders.NO_INK, err)

    def test_a_job_file_has_no_names(self) -> None:
        path = self.folder / "keys.job"
        path.write_bytes(textform.read(KEYS).job)
        _, _, err = self.run_order(path)
        self.assertIn("keys.job is a job file: names and remarks are missing", err)
        self.assertEqual(textform.read(self.made("keys.txt")).job, path.read_bytes())

    def test_another_order_is_not_written_over_without_a_word(self) -> None:
        """All of an order is that of one text, whichever tool has written it."""
        path = self.text("keys.txt")
        self.run_order(*INK, path)
        before = self.contents()
        path.write_text(KEYS.replace("track 7 5 5 20 5", "track 7 5 5 21 5"))
        status, out, err = self.run_order(*INK, path)
        self.assertEqual((status, out, self.contents()), (4, "", before))
        self.assertIn("keys holds another order:\n    keys.txt is another text, first in line 3: it has "
                      "`track 7 5 5 20 5", err)
        self.assertIn("give --replace, another name, or another folder (--to)", err)
        self.assertEqual(self.run_order(*INK, "--replace", path)[0], 1)
        self.assertEqual(self.made("keys.txt").splitlines()[2].split("#")[0].strip(), "track 7 5 5 21 5")

    def test_the_same_order_on_another_day(self) -> None:
        path = self.text("keys.txt")
        self.run_order(path)
        self.assertEqual(self.run_order("--date", "2026-12-24", path)[0], 1)
        self.assertIn("<time>2026-12-24</time>", self.made("keys.html"))

    def test_a_file_that_was_changed_by_hand(self) -> None:
        path = self.text("keys.txt")
        self.run_order(path)
        for name in ALL[1:]:
            with self.subTest(name):
                file = self.to / "keys" / name
                kept = file.read_bytes()
                file.write_bytes(kept + b" ")
                status, _, err = self.run_order(path)
                self.assertEqual((status, name in err, file.read_bytes()), (4, True, kept + b" "))
                file.write_bytes(kept)

    def at_a_terminal(self, typed: bytes, *words: pathlib.Path) -> Tuple[int, str]:
        """Runs the command at a terminal where something is typed: its status, and what is said there."""
        programs = {name: str(path) for name, path in self.stand_in().items()}
        script = ("import sys; from desk import building, orders; programs = %r\n"
                  "building.built = lambda *names: [programs[name] for name in names]\n"
                  "sys.exit(orders.main(sys.argv[1:]))" % programs)
        ours, theirs = os.openpty()
        try:
            os.write(ours, typed)
            done = subprocess.run([sys.executable, "-B", "-c", script, "--to", self.to, *words], cwd=program.ROOT,
                                  stdin=theirs, stdout=subprocess.DEVNULL, stderr=theirs, timeout=60)
            return done.returncode, os.read(ours, 10_000).decode()
        finally:
            os.close(ours)
            os.close(theirs)

    def test_it_is_asked_at_a_terminal(self) -> None:
        path = self.text("keys.txt")
        for typed, status in ((b"no\n", 4), (b"\n", 4), (b"\x04", 4), (b"yes\n", 1), (b"Y\n", 1)):
            self.run_order("--replace", path)
            self.to.joinpath("keys", "keys.txt").write_text("board 3 3 0\nend\n")
            found, said = self.at_a_terminal(typed, path)
            self.assertEqual((found, self.made("keys.txt") == KEYS), (status, status == 1), said)
            self.assertIn("write over it? (yes or no)", said)

    def test_its_own_text_and_its_own_job_file(self) -> None:
        self.run_order(self.text("keys.txt"))
        own = self.to / "keys" / "keys.txt"
        self.assertEqual(self.run_order(own)[0], 1)
        own.write_text("# so\n" + KEYS)
        self.assertEqual(self.run_order(own)[0], 4)
        self.assertEqual(self.run_order("--replace", own)[0], 1)
        self.assertEqual(self.made("keys.txt"), "# so\n" + KEYS)
        own.unlink()
        self.assertEqual(self.run_order("--replace", own.with_name("keys.job"))[0], 1)
        self.assertEqual(textform.read(self.made("keys.txt")).job, own.with_name("keys.job").read_bytes())

    def contents(self) -> Dict[str, bytes]:
        """What is in the folder of keys."""
        return {path.name: path.read_bytes() for path in self.to.joinpath("keys").iterdir()}

    def test_a_full_disk(self) -> None:
        """At whichever file the disk is full, the old order is whole, and nothing is said to be accepted."""
        path = self.text("keys.txt", "board 60 40 0\nend\n")
        programs = self.stand_in(("board 0\nstrip 0 0 60 40\n",), ("",))
        self.assertIn("every step was accepted", self.run_order(path, programs=programs)[1])
        before, put_new = self.contents(), outputs.put_new
        path.write_text("board 60 40 0 # another\nend\n")
        for full in range(1, len(before) + 1):
            counted = iter(range(1, 99))

            def cut(place: pathlib.Path, content: bytes, mode: Optional[int] = None) -> None:
                if next(counted) == full:
                    place.write_bytes(content[:7])
                    raise OSError(errno.ENOSPC, os.strerror(errno.ENOSPC), str(place))
                put_new(place, content, mode)

            with mock.patch.object(outputs, "put_new", cut):
                status, out, err = self.run_order("--replace", path, programs=programs)
            self.assertEqual((status, out, self.contents(), os.listdir(self.to)), (4, "", before, ["keys"]))
            self.assertIn("No space left on device; nothing was written: the order is as it was", err)

    @unittest.skipUnless(small_disk.can_be_had(), small_disk.WHY)
    def test_a_disk_that_is_full(self) -> None:
        path = self.text("keys.txt")
        with small_disk.Disk(self.to, "48k"):
            self.assertEqual(self.run_order(path)[0], 1)
            before = self.contents()
            self.to.joinpath("rest").write_bytes(bytes(8000))
            path.write_text(KEYS + "# more\n" * 900)
            status, out, err = self.run_order("--replace", path)
            self.assertEqual((status, out, self.contents(), sorted(os.listdir(self.to))), (
                4, "", before, ["keys", "rest"]))
            self.assertIn("No space left on device", err)

    def test_names_that_a_folder_cannot_have(self) -> None:
        for name in ("...txt", "a..b.txt", ".txt", "-x.txt", "a:b.txt"):
            with self.subTest(name):
                status, out, err = self.run_order(self.text("texts/" + name))
                self.assertEqual((status, out, self.to.exists()), (4, "", False))
                self.assertIn("is no name for an order", err)
        self.assertEqual(sorted(path.name for path in self.folder.iterdir()), ["texts"])

    def test_a_name_that_is_made_safe(self) -> None:
        self.run_order(self.text("O'Neil & Sons, #4.txt"))
        folder = self.to / "O%27Neil %26 Sons%2C %234"
        self.assertEqual(sorted(path.name for path in folder.iterdir()),
                         [folder.name + name[len("keys"):] for name in ALL[1:]])
        page = folder.joinpath(folder.name + ".html").read_text(encoding="utf-8")
        self.assertIn("<h1>O&#x27;Neil &amp; Sons, #4</h1>", page)
        drawn = ET.parse(folder / (folder.name + ".svg"))
        self.assertEqual(drawn.find("{*}title").text, "O'Neil & Sons, #4")

    def test_a_linked_folder(self) -> None:
        outside = self.folder / "outside"
        outside.mkdir()
        self.to.mkdir()
        self.to.joinpath("keys").symlink_to(outside)
        status, out, err = self.run_order("--replace", self.text("keys.txt"))
        self.assertEqual((status, out, os.listdir(outside)), (4, "", []))
        self.assertIn("is a link or a file, and no folder of an order", err)

    def test_a_text_in_utf_16(self) -> None:
        path = self.folder / "keys.txt"
        for code in ("utf-16", "utf-16-le", "utf-16-be"):
            path.write_bytes(KEYS.encode(code))
            status, out, err = self.run_order(path)
            self.assertEqual((status, out, self.to.exists()), (2, "", False))
            self.assertIn("keys.txt, line 1: this is text in UTF-16: save it as UTF-8", err)

    def test_words_that_do_not_go_together(self):
        path = self.text("keys.txt")
        for words in (("--sheet", "1", path), ("--bend", "0", path), ("--dead", "0", path), ("--width", "1", path),
                      ("--exact", path), ()):
            status, out, err = self.run_order(*words)
            self.assertEqual((status, out, err.splitlines()[-1]), (4, "", "./foil-order --help says how it is used"))


class Carton(Folder):
    def page(self, *words, **how):
        self.run_order(*words, self.text("keys.txt"), **how)
        return self.made("keys.html")

    def test_the_page(self):
        page = self.page()
        self.assertEqual(slip_rows(page), [(SLIP, "to the pins")])
        for there in ("<h1>keys</h1><time>2026-11-17</time>", "<title>keys</title>",
                      "<h2>Open tracks</h2>\n<ul>\n<li>net 8 (Light) from 0,0 to 35,15 (8)</li>\n</ul>",
                      "<li>not on the foil: patch 0 0 0 0 (3)</li>",
                      "<li>Page on &amp; &lt;off&gt;: patch 30 10 40 20</li>"):
            self.assertIn(there, page)

    def test_the_picture_is_that_of_the_folder(self):
        page = self.page()
        drawn = base64.b64decode(re.search('src="data:image/svg\\+xml;base64,([^"]*)"', page)[1]).decode()
        self.assertEqual(drawn, self.made("keys.svg"))

    def test_the_page_stands_alone(self):
        self.assertEqual(re.findall(r"<(?:script|link)|(?:src|href)=\"(?!data:)|url\(", self.page()), [])

    def test_all_open_tracks_are_on_it(self):
        text = "board 60 40 0\n" + "".join("track %d 0 0 1 1\n" % net for net in range(1, 60)) + "end\n"
        written = "board 0\n" + "".join("track %d 9\n" % net for net in range(1, 60)) + "strip 0 0 9 9\n"
        self.run_order(self.text("keys.txt", text), programs=self.stand_in((written,), ("",)))
        self.assertEqual(self.made("keys.html").count("<li>net "), 59)

    def test_nothing_is_open(self):
        text = "board 60 40 0\ntrack 7 5 5 20 5\nend\n"
        self.run_order(self.text("keys.txt", text), programs=self.stand_in(
            ("board 0\ntrack 7 0 0 5,5 20,5\nstrip 0 0 60 5\n",)))
        page = self.made("keys.html")
        self.assertIn("<h2>No track is open</h2>", page)
        self.assertEqual(re.findall("<li>|Keys|To be checked", page), [])
        self.assertEqual(slip_rows(page), [(SLIP, "")])


@given.with_program
@unittest.skipIf(test_answers.MISSING, "not built: %s" % ", ".join(test_answers.MISSING))
class ByThePrograms(Folder):
    def test_samples(self):
        texts = [given.SAMPLES / (name + ".txt") for name in given.NAMES]
        status, out, err = self.run_order(*INK, *texts, programs=BUILT)
        self.assertEqual((status, err), (2, ""))
        for name in given.NAMES:
            with self.subTest(name):
                run, order = given.run_of(name), self.to / name / name
                made = given.SAMPLES.joinpath(name + ".job").read_bytes()
                self.assertEqual(order.with_name(name + ".job").read_bytes(), made)
                page = order.with_name(name + ".html")
                self.assertEqual(page.exists(), run.strips is not None)
                if run.strips is not None:
                    slip = order.with_name(name + "-slip.txt").read_bytes()
                    self.assertEqual(slip, test_answers.slip(run))
                    shown = "".join(line for line, _ in slip_rows(page.read_text(encoding="utf-8")))
                    self.assertEqual(shown, slip.decode())


class Script(unittest.TestCase):
    def test_help(self):
        done = subprocess.run([program.ROOT / "foil-order", "--help"], cwd="/", capture_output=True, text=True)
        self.assertEqual((done.returncode, done.stderr), (0, ""))
        for ending in folders.ENDINGS:
            self.assertIn("keys" + ending, done.stdout)


if __name__ == "__main__":
    unittest.main()
