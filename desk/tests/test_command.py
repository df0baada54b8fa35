"""The command: its exit status, what it prints and what it keeps. A program that writes stored lines stands for the
proved one."""
import contextlib
import io
import os
import pathlib
import subprocess
import sys
import tempfile
import unittest
import xml.etree.ElementTree as ET
from unittest import mock

from desk import building, command, program, sources
from desk.tests import given


class Command(unittest.TestCase):
    def setUp(self):
        folder = tempfile.TemporaryDirectory()
        self.addCleanup(folder.cleanup)
        self.folder = pathlib.Path(folder.name)

    def run_foil(self, *given_words, written=""):
        """Runs the command on a program that writes these lines: its status, its output, and what it complains of."""
        path, folder = given.replay(written)
        self.addCleanup(folder.cleanup)
        out, err = io.StringIO(), io.StringIO()
        with contextlib.redirect_stdout(out), contextlib.redirect_stderr(err):
            status = command.main([str(word) for word in given_words], path)
        return status, out.getvalue(), err.getvalue()

    def run_sample(self, name, *options):
        """The same for a sample and its stored lines."""
        return self.run_foil(*options, given.SAMPLES / (name + ".txt"), written=given.written_for(name))

    def test_status(self):
        for name, status in (("document-01", 0), ("less-ink", 1), ("board-size", 2), ("cut-short", 2), ("too-long", 2)):
            with self.subTest(name):
                self.assertEqual(self.run_sample(name)[0], status)

    def test_job_is_kept(self):
        kept = self.folder / "kept.job"
        self.run_sample("window", "--job", kept)
        self.assertEqual(kept.read_bytes(), given.SAMPLES.joinpath("window.job").read_bytes())

    def test_lines_of_the_program(self):
        for name in given.NAMES:
            self.assertEqual(self.run_sample(name, "--lines")[1], given.written_for(name))

    def test_quiet_has_refusals_only(self):
        self.assertEqual(self.run_sample("document-01", "--quiet")[:2], (0, ""))
        status, out, _ = self.run_sample("less-ink", "--quiet")
        self.assertEqual((status, out.count("refused (8)"), out.count("laid")), (1, 1, 0))
        self.assertIn("at fault (14)", self.run_sample("cut-short", "--quiet")[1])

    def test_nothing_is_run_for_a_text_that_cannot_be_read(self):
        text, kept = self.folder / "bad.txt", self.folder / "kept.job"
        text.write_text("board 9 9 0\ntrak 1\nlift\nend\n")
        status, out, err = self.run_foil("--job", kept, text, written="board 0\n")
        self.assertEqual((status, out, kept.exists()), (2, "", False))
        self.assertEqual([line.split(": ")[0] for line in err.splitlines()], ["%s, line 2" % text, "%s, line 3" % text])

    def text(self, content):
        """A text of the test's own: its path."""
        path = self.folder / "a.txt"
        path.write_bytes(content.encode() if isinstance(content, str) else content)
        return path

    def test_only_the_first_of_many_faults_are_told(self):
        _, _, err = self.run_foil(self.text("board\n" * 1000))
        self.assertEqual((err.count("\n"), err.splitlines()[-1]),
                         (sources.TOLD + 1, "and 980 more lines that cannot be read"))
        _, _, err = self.run_foil(self.text("board\n" * sources.TOLD))
        self.assertEqual(err.count("\n"), sources.TOLD)

    def test_bytes_that_are_no_text(self):
        status, out, err = self.run_foil(self.text(b"board 5 5 0\n# Schl\xfcssel\nend\n"))
        self.assertEqual((status, out, err.split(": ")[0]), (2, "", "%s, line 2" % (self.folder / "a.txt")))

    def test_texts_that_the_router_does_not_read_to_their_end(self):
        for content, written, told in (
                ("", "file 14\n", "the end of the file  at fault (14)"),
                ("board 5 5 0\r\n", "board 0\nfile 14\n", "the end of the file  at fault (14)"),
                ("patch 0 0 1 1\nboard 5 5 0\nend\n", "file 16\n", "1  patch 0 0 1 1  at fault (16)"),
                ("board 5 5 0\nboard 5 5 0\nend\n", "board 0\nfile 16\n", "2  board 5 5 0  at fault (16)"),
                ("board 5 5 0\n" + "lift 1\n" * 20_000 + "end\n", "file 18\n", "the whole file  at fault (18)")):
            with self.subTest(told):
                status, out, err = self.run_foil(self.text(content), written=written)
                self.assertEqual((status, err), (2, ""))
                self.assertIn(told, out)

    def test_nothing_is_written_over_what_is_read(self):
        path = self.text("board 5 5 0\nend\n")
        for option in ("--job", "--picture"):
            status, out, err = self.run_foil(option, self.folder / "." / "a.txt", path)
            self.assertEqual((status, out), (4, ""))
            self.assertIn("a.txt would be written over", err)
        self.assertEqual(path.read_text(), "board 5 5 0\nend\n")

    def test_outputs_are_not_written_over_each_other(self):
        link = self.folder / "link.svg"
        link.symlink_to("both")
        for job, drawn in (("both", "both"), ("both", "./both"), ("both", "link.svg"), ("link.svg", "both")):
            words = ("--job", self.folder / job, "--picture", self.folder / drawn)
            status, out, err = self.run_sample("document-01", *words)
            self.assertEqual((status, out, self.folder.joinpath("both").exists()), (4, "", False))
            self.assertIn("would be written over: give the picture another name", err)

    def test_outputs_are_written_over_their_own_kind_alone(self):
        self.run_sample("document-01", "--job", self.folder / "a.job", "--picture", self.folder / "a.svg")
        kinds = {"--job": "a.job", "--picture": "a.svg"}
        self.text("board 5 5 0\nend\n")
        self.folder.joinpath("empty").write_bytes(b"")
        for option, right in kinds.items():
            for name in ("a.job", "a.svg", "a.txt", "empty"):
                before = self.folder.joinpath(name).read_bytes()
                status, out, err = self.run_sample("window", option, self.folder / name)
                changed = self.folder.joinpath(name).read_bytes() != before
                with self.subTest(option, name=name):
                    if name in (right, "empty"):
                        self.assertEqual((status, changed), (1, True), err)
                        self.folder.joinpath(name).write_bytes(before)
                    else:
                        self.assertEqual((status, out, changed), (4, "", False))
                        self.assertIn("%s is there and is no " % name, err)
        for option in kinds:
            self.assertEqual(self.run_sample("document-01", option, "/dev/null")[0], 0)
            self.assertIn("goes to a file: give it a name", self.run_sample("document-01", option, "-")[2])

    def test_an_output_that_cannot_be_written_loses_no_answer(self):
        right = self.run_sample("less-ink")[1]
        nowhere, kept = self.folder / "no" / "x", self.folder / "kept"
        for words in (("--picture", nowhere, "--job", kept), ("--job", nowhere, "--picture", kept)):
            status, out, err = self.run_sample("less-ink", *words)
            self.assertEqual((status, out, err), (4, right, "%s: No such file or directory\n" % nowhere))
            self.assertTrue(kept.stat().st_size)
            kept.unlink()
        loop = self.folder / "loop"
        loop.symlink_to("loop")
        for path, why in ((self.folder / ("x" * 300), "File name too long"), (self.folder, "Is a directory"),
                          (loop, "Too many levels of symbolic links")):
            for option in ("--picture", "--job"):
                self.assertEqual(self.run_sample("less-ink", option, path), (4, right, "%s: %s\n" % (path, why)))
        status, out, err = self.run_sample("less-ink", "--picture", "/dev/full", "--lines")
        self.assertEqual((status, out, err), (4, given.written_for("less-ink"), "/dev/full: No space left on device\n"))

    def test_a_long_text_has_one_line(self):
        long = self.text("board 9 9 0\n" + "track 1 100 200 300 400\n" * 45_000 + "end\n")
        status, out, err = self.run_foil(long, written="file 18\n")
        self.assertEqual((status, out.count("at fault (18)"), out.count("\n"), err), (2, 1, 2, ""))

    def test_without_the_program(self):
        with mock.patch.object(building, "built", side_effect=program.NotRun("no program")), \
                contextlib.redirect_stderr(io.StringIO()) as err:
            self.assertEqual(command.main([str(given.SAMPLES / "less-ink.txt")]), 5)
        self.assertEqual(err.getvalue(), "no program\n")

    def test_a_program_that_fails(self):
        path, folder = given.replay("")
        self.addCleanup(folder.cleanup)
        for script, told in (
                ("exit 3", "the program replay ended with status 3"), ("printf '\\377\\n'", "a line that is none")):
            path.write_text("#!/bin/sh\ncat > /dev/null\n%s\n" % script)
            with contextlib.redirect_stderr(io.StringIO()) as err:
                self.assertEqual(command.main([str(given.SAMPLES / "less-ink.txt")], path), 5)
            self.assertIn(told, err.getvalue())

    def test_a_folder(self):
        self.assertEqual(self.run_foil(self.folder), (4, "", "%s: Is a directory\n" % self.folder))

    def test_what_is_not_there(self):
        status, out, err = self.run_foil(self.folder / "none.txt")
        self.assertEqual((status, out), (4, ""))
        self.assertIn("none.txt: No such file", err)
        self.assertEqual(self.run_foil("--picture", self.folder / "no" / "x.svg", given.SAMPLES / "document-01.txt",
                                       written=given.written_for("document-01"))[0], 4)

    def test_lines_that_are_not_those_of_the_job(self):
        status, out, err = self.run_foil(given.SAMPLES / "document-01.txt", written="board 0\nlift 5 0\n")
        self.assertEqual((status, out), (5, ""))
        self.assertIn("a line `lift` for a step `patch`", err)

    def test_picture(self):
        for suffix in (".txt", ".job"):
            drawn = self.folder / "x.svg"
            status, out, _ = self.run_foil("--picture", drawn, "--strips", given.SAMPLES / ("document-01" + suffix),
                                           written=given.written_for("document-01"))
            self.assertEqual((status, out.count("laid: 2 bends, length 10")), (0, 1))
            self.assertTrue(ET.parse(drawn).getroot().tag.endswith("svg"))
            drawn.unlink()

    def test_picture_of_a_file_whose_name_is_no_text(self):
        path, drawn = pathlib.Path(os.fsdecode(os.fsencode(self.folder) + b"/caf\xe9.txt")), self.folder / "x.svg"
        path.write_text(given.text_of("document-01"))
        status, _, err = self.run_foil("--picture", drawn, path, written=given.written_for("document-01"))
        self.assertEqual((status, err), (0, ""))
        self.assertIn("<title>caf?</title>", drawn.read_text(encoding="utf-8"))

    def test_no_picture_without_a_foil(self):
        drawn = self.folder / "x.svg"
        status, _, err = self.run_sample("board-size", "--picture", drawn)
        self.assertEqual((status, err, drawn.exists()), (2, "no foil was begun, so there is no picture\n", False))

    def test_text_of_a_job_runs_nothing(self):
        status, out, _ = self.run_foil("--text", given.SAMPLES / "document-01.job", written="no line at all")
        self.assertEqual((status, out), (0, "board 6 4 0, patch 2 0 3 3\ntrack 5 0 0 4 0\nend\n"))
        status, out, _ = self.run_foil("--text", given.SAMPLES / "cut-short.job")
        self.assertEqual(status, 2)
        self.assertIn("# file 14: the file ends inside a record or before its end mark\n", out)

    def test_words_that_do_not_go_together(self):
        for words in ("--strips x.txt", "--text --picture x.svg x.job", "--lines --quiet x.txt", "a.txt b.txt",
                      "--pic x"):
            status, out, err = self.run_foil(*words.split())
            self.assertEqual((status, out, err.splitlines()[-1]), (4, "", "./foil --help says how it is used"))

    def test_output_that_is_cut_off(self):
        drawn = self.folder / "x.svg"
        path, folder = given.replay(given.written_for("document-01"))
        self.addCleanup(folder.cleanup)
        words = "command.main(['--picture', '%s', 'samples/document-01.txt'], '%s')" % (drawn, path)
        script = "import sys; from desk import command; sys.exit(%s)" % words
        with subprocess.Popen([sys.executable, "-B", "-c", script], cwd=program.ROOT, stdout=subprocess.PIPE,
                              stderr=subprocess.PIPE) as running:
            running.stdout.close()
            complaints = running.stderr.read()
        self.assertEqual((running.returncode, complaints, drawn.exists()), (4, b"", True))

    def test_names_that_name_nothing_are_told(self):
        path = self.text("board 5 5 0 # key: Up\nend\n")
        status, _, err = self.run_foil(path, written="board 0\nstrip 0 0 5 5\n")
        told = "%s, line 1: `key: Up` names no patch: there is none on this line\n"
        self.assertEqual((status, err), (0, told % path))

    def test_the_check_list_ends_the_words(self):
        for options, begins in (((), "    2  board"), (("--quiet",), "    4  track 2")):
            _, out, _ = self.run_sample("less-ink", *options)
            self.assertTrue(out.startswith(begins), out)
            self.assertTrue(out.endswith("\n\ncheck list:\n       open: net 2 from 1,5 to 7,3 (8)\n"), out)
        for name in ("document-01", "cut-short", "board-size"):
            self.assertNotIn("check list", self.run_sample(name)[1])

    def test_the_script(self):
        words = [program.ROOT / "foil", "--text", "samples/document-01.job"]
        done = subprocess.run(words, cwd=program.ROOT, capture_output=True, text=True)
        self.assertEqual((done.returncode, done.stdout.count("\n"), done.stderr), (0, 3, ""))


if __name__ == "__main__":
    unittest.main()
