"""The commands that ask the foil that a job leaves: what they print, what they say was refused, and their statuses.
Programs that write stored lines stand for the proved ones."""
import contextlib
import io
import re
import sys
import unittest
from unittest import mock

from desk import asking, building, refusals, statuses
from desk.tests import given
from desk.tests.scratch import Scratch

README = refusals.README.read_text(encoding="utf-8")
TABLE = refusals.table_of(README)
INK = ["--sheet", "0.5", "--width", "2", "--bend", "0.5"]
SLIP_LINES = "  1    3      12     1     1    \n"
# each question, its words, what its program writes for a foil with a net, and what is printed for that
ASKED = (
    (asking.SLIP, [], SLIP_LINES, SLIP_LINES),
    (asking.SAVE, [], "!\t\0", "!\t\0"),
    (asking.OHMS, INK + ["--exact"], "ohms 1 0 400c000000000000\n", "1 3.5\n"),
)
# what ends the job of a sample, for the programs of the questions
ENDS = {"cut-short": "file 14\n", "too-fine": "file 14\n", "unknown-bit": "file 15\n", "second-board": "file 16\n",
        "bytes-after-end": "file 17\n", "too-long": "file 18\n", "board-size": "board 1\n",
        "board-clearance": "board 2\n"}
# the samples that leave a foil without some of their steps
UNFINISHED = ["full-table", "less-ink", "reader-relaid", "refusals", "wide-pen", "window"]


def job_of(name):
    """A sample's job file."""
    return given.SAMPLES.joinpath(name + ".job").read_bytes()


class Asking(unittest.TestCase):
    def run_command(self, work, job, *programs):
        """The status of a command that is given a job, what it prints, and what it says on standard error. Its programs
        write, and say on standard error, what is given for each."""
        paths = []
        for written in programs:
            path, folder = given.replay(*written)
            self.addCleanup(folder.cleanup)
            paths.append(path)
        out, err = io.TextIOWrapper(io.BytesIO(), newline=""), io.StringIO()
        with mock.patch.object(building, "built", return_value=paths), contextlib.redirect_stdout(out), \
                mock.patch.object(sys, "stdin", io.TextIOWrapper(io.BytesIO(job))), contextlib.redirect_stderr(err):
            status = statuses.ended(work)
        return status, out.buffer.getvalue().decode(), err.getvalue()

    def ask(self, question, words, name, written="", said=""):
        """The same for a question about a sample's foil, by the sample's stored lines and what its program writes."""
        return self.run_command(lambda: asking.ask(question, words), job_of(name), (given.written_for(name),),
                                (written, said))

    def test_nothing_is_said_where_all_was_accepted(self):
        for question, words, written, printed in ASKED:
            self.assertEqual(self.ask(question, words, "document-01", written), (0, printed, ""))

    def test_a_refused_step_is_said_and_the_answer_printed(self):
        says, to_do = TABLE[8]
        for question, words, written, printed in ASKED:
            with self.subTest(question.command):
                status, out, err = self.ask(question, words, "less-ink", written)
                self.assertEqual((status, out), (1, printed))
                self.assertEqual(" ".join(err.split()), "./%s: 1 of 4 steps was refused, and what is printed is of the "
                                 "foil without it: 3 track 2 1 5 7 3 refused (8): %s what to do: %s"
                                 % (question.command, says, to_do))

    def test_each_of_many_refused_steps_is_said(self):
        status, out, err = self.ask(asking.SLIP, [], "refusals", SLIP_LINES)
        self.assertEqual((status, out), (1, SLIP_LINES))
        self.assertTrue(err.startswith("./foil-slip: 19 of 26 steps were refused, and what is printed is of the "))
        told = re.findall(r"(?m)^ .{4}  (\w+ [\d ]*\d) +refused \((\d+)\)", err)
        self.assertEqual(told, [
            ("patch 40 8 40 20", "3"), ("patch 56 30 44 38", "3"), ("patch 50 30 61 38", "3"),
            ("patch 30 0 32 40", "21"), ("leg 3 27 9 28 10", "21"),
            ("track 0 2 2 50 2", "4"), ("track 1000 2 2 50 2", "4"), ("track 1 2 2 4 2", "5"),
            ("track 2 60 2 2 2", "7"), ("track 2 11 9 60 2", "7"), ("track 2 11 9 50 2", "8"),
            ("track 2 27 9 50 2", "8"), ("track 2 1 9 50 2", "8"), ("track 2 2 2 50 2", "9"), ("lift 0", "4"),
            ("lift 7", "6"), ("patch 0 0 0 0", "3"), ("track 2 40 2 50 2", "5"), ("lift 2", "6")])

    def test_nothing_is_printed_without_a_foil(self):
        for name, line in ENDS.items():
            number = int(line.split()[1])
            how, why = ("at fault", "the job cannot be read to its end") if line.startswith("file") else \
                ("refused", "its board was refused")
            for question, words, _, _ in ASKED:
                with self.subTest(name, command=question.command):
                    told = (line, "") if question is asking.OHMS else ("", line)
                    status, out, err = self.ask(question, words, name, *told)
                    self.assertEqual((status, out), (2, ""))
                    self.assertTrue(err.startswith("./%s: nothing is printed, since %s:\n" % (question.command, why)))
                    self.assertIn("%s (%d): %s" % (how, number, TABLE[number].says), " ".join(err.split()))

    def test_an_empty_file(self):
        status, out, err = self.run_command(lambda: asking.ask(asking.SAVE, []), b"", ("file 14\n",), ("", "file 14\n"))
        self.assertEqual((status, out), (2, ""))
        self.assertIn("the end of the file  at fault (14)", err)

    def test_a_save_that_is_refused(self):
        refused = "1 of 4 steps was refused: 3 track 2 1 5 7 3 refused (8)"
        for name, steps in (("document-01", ""), ("less-ink", refused)):
            status, out, err = self.ask(asking.SAVE, [], name, "", "save 11\n")
            self.assertEqual((status, out), (3, ""))
            told = " ".join(err.split())
            self.assertIn("./foil-save: nothing is printed, since it was refused (11): " + TABLE[11].says, told)
            self.assertIn(steps, told)

    def test_programs_that_do_not_agree(self):
        for name, told in (("document-01", ("", "file 14\n")), ("cut-short", (SLIP_LINES, "")),
                           ("cut-short", ("", "file 15\n")), ("board-size", ("", "slip 12\n"))):
            status, out, err = self.ask(asking.SLIP, [], name, *told)
            self.assertEqual((status, out), (5, ""))
            self.assertIn("job_main and slip_main do not agree", err)

    def test_lines_that_are_none_of_a_program(self):
        for question, words, told in ((asking.SLIP, [], ("", "no slip\n")), (asking.OHMS, INK, ("ohms 5 0 40\n", ""))):
            status, out, err = self.ask(question, words, "document-01", *told)
            self.assertEqual((status, out), (5, ""))
            self.assertIn("a line that is none of its own", err)

    def test_words_that_are_not_understood(self):
        for question, words in (
                (asking.SLIP, ["a.job", "b.job"]), (asking.SAVE, ["--out", "x"]), (asking.OHMS, []),
                (asking.OHMS, INK[:4]), (asking.OHMS, ["0.5", "2", "0.5"]), (asking.OHMS, INK + ["--w", "1"])):
            status, out, err = self.ask(question, words, "document-01")
            self.assertEqual((status, out), (4, ""))
            self.assertTrue(err.endswith("./%s --help says how it is used\n" % question.command), err)

    def test_the_lines_of_a_job(self):
        for name in given.NAMES:
            written = given.written_for(name)
            status = 2 if name in ENDS else 1 if name in UNFINISHED else 0
            told = self.run_command(lambda: asking.job_lines([]), job_of(name), (written,))
            self.assertEqual(told, (status, written, ""))

    def test_readme_has_each_status_once(self):
        rows = re.findall(r"(?m)^\| (\d+) \|", README.split("| Status |")[1].split("\n\n")[0])
        known = [value for name, value in vars(statuses).items() if name.isupper()]
        self.assertEqual([int(row) for row in rows], known)


class Streams(unittest.TestCase):
    """The scripts themselves, with streams that are closed, cut off or full, and from other folders."""

    @classmethod
    def setUpClass(cls):
        script = "#!/bin/sh\ncat > /dev/null\nprintf '%s'\n"
        cls.scratch = Scratch(
            job_main=script % given.written_for("less-ink").replace("\n", "\\n"), slip_main=script % SLIP_LINES,
            save_main=script % "!", ohms_main=script % "ohms 1 0 400c000000000000\\n")
        cls.addClassCleanup(cls.scratch.remove)
        cls.commands = [("foil-job",), ("foil-slip",), ("foil-save",), ("foil-ohms", *INK)]
        for command in cls.commands:
            cls.scratch.run(*command)

    def run_each(self, streams="", commands=None, **how):
        """Each command on the job of less-ink, with streams as a shell takes them: status, output, standard error."""
        told = []
        for command in commands or self.commands:
            with open(given.SAMPLES / "less-ink.job", "rb") as job:
                told.append(self.scratch.run(*command, streams=streams, stdin=job, **how))
            self.assertIsNone(re.search("Traceback|Exception", told[-1][2]), told[-1])
        return told

    def test_from_another_folder(self):
        for status, out, err in self.run_each(cwd="/"):
            self.assertEqual((status, bool(out)), (1, True), err)

    def test_standard_input_is_closed(self):
        for told in self.run_each("<&-"):
            self.assertEqual(told, (4, "", "standard input: it is closed\n"))

    def test_standard_output_is_closed_or_full(self):
        for streams, why in ((">&-", "it is closed"), ("> /dev/full", "No space left on device")):
            for status, out, err in self.run_each(streams, [("foil-job",)]):
                self.assertEqual((status, out, err), (4, "", "standard output: %s\n" % why))
            for status, out, err in self.run_each(streams, self.commands[1:]):
                self.assertEqual((status, out, err.splitlines()[-1]), (4, "", "standard output: %s" % why))
                self.assertIn("1 of 4 steps was refused", err)

    def test_standard_output_is_cut_off(self):
        for command in self.commands:
            with open(given.SAMPLES / "less-ink.job", "rb") as job:
                running = self.scratch.start(*command, stdin=job)
                running.stdout.close()
                with running:
                    err = running.stderr.read()
            self.assertEqual((running.returncode, re.search("Traceback|Exception", err)), (4, None), err)

    def test_standard_error_is_closed(self):
        for status, out, _ in self.run_each("2>&-"):
            self.assertEqual((status, bool(out), "refused" in out), (1, True, False))

    def test_through_a_link(self):
        link = self.scratch.root.parent / "slip"
        link.symlink_to(self.scratch.root / "foil-slip")
        for status, out, _ in self.run_each(commands=[("../slip",)]):
            self.assertEqual((status, out), (1, SLIP_LINES))


if __name__ == "__main__":
    unittest.main()
