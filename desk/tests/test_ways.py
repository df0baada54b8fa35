"""The ways into each command: its help, a file's name or standard input, texts as well as job files, a link, any
folder, any way to start Python. Programs that write stored lines stand for the proved ones."""
import os
import pathlib
import pty
import re
import select
import struct
import subprocess
import sys
import tempfile
import unittest
from fcntl import ioctl
from termios import TIOCSWINSZ

from desk import program, sources
from desk.tests import given
from desk.tests.scratch import Scratch

INK = ("--sheet", "0.5", "--bend", "0.5")
COMMANDS = (("foil",), ("foil-job",), ("foil-slip",), ("foil-save",), ("foil-ohms", *INK))
# how many seconds a command may be silent
PATIENCE = 20
# what stands for a program: it keeps the job that it was given, and writes its lines
SCRIPT = '#!/bin/sh\n%scat > "$(dirname "$0")/given"\nprintf \'%s\'\n'


class Ways(unittest.TestCase):
    @classmethod
    def setUpClass(cls):
        written = given.written_for("less-ink").replace("\n", "\\n")
        cls.scratch = Scratch(
            job_main=SCRIPT % ("", written), slip_main=SCRIPT % ("", "  1    3      12     1     1    \\n"),
            save_main=SCRIPT % ("", "!"),
            ohms_main=SCRIPT % ("head -c 24 > /dev/null; ", "ohms 1 0 400c000000000000\\n"))
        cls.addClassCleanup(cls.scratch.remove)
        for name in ("job_main", "slip_main", "save_main", "ohms_main"):
            cls.scratch.run("tools/built", name)
        cls.scratch.calls()
        cls.folder = cls.scratch.root.parent / "jobs"
        cls.folder.mkdir()
        for name in ("less-ink.txt", "less-ink.job"):
            cls.folder.joinpath(name).write_bytes(given.SAMPLES.joinpath(name).read_bytes())

    def run_all(self, *words, commands=COMMANDS, sent=os.devnull, **how):
        """What each command comes to, with words after its own and a file sent to it: status, output, standard error.
        Nothing is built."""
        told = []
        for command in commands:
            with open(self.folder / sent, "rb") as file:
                told.append(self.scratch.run(*command, *words, cwd=self.folder, stdin=file, **how))
        self.assertEqual(self.scratch.calls(), [])
        for _, _, err in told:
            self.assertIsNone(re.search("Traceback|Error", err), err)
        return told

    def job_given(self):
        """The bytes that the job program was given last."""
        return self.scratch.root.joinpath("target", "bin", "given").read_bytes()

    def test_help(self):
        for command, (status, out, err) in zip(COMMANDS, self.run_all("--help", with_rt=False)):
            self.assertEqual((status, err, out.split()[:2]), (0, "", ["usage:", "./" + command[0]]))
            self.assertIn("FILE", out)

    def test_a_text_and_a_job_file_by_name_and_by_standard_input(self):
        right = self.run_all("less-ink.txt")
        self.assertEqual([status for status, _, _ in right], [1] * len(COMMANDS))
        for command, (_, out, err) in zip(COMMANDS, right):
            self.assertIn("refused (8)", out + err if command[0] != "foil-job" else "refused (8)")
            self.assertTrue(out)
        for words, sent in ((("-",), "less-ink.txt"), ((), "less-ink.txt"), (("less-ink.job",), os.devnull),
                            (("-",), "less-ink.job"), ((), "less-ink.job")):
            with self.subTest(words=words, sent=sent):
                told = self.run_all(*words, sent=sent)
                for (status, out, _), (right_status, right_out, _) in zip(told[1:], right[1:]):
                    self.assertEqual((status, out), (right_status, right_out))
                self.assertEqual(self.job_given(), given.SAMPLES.joinpath("less-ink.job").read_bytes())

    def test_refused_steps_have_the_lines_of_the_text(self):
        for name, line in (("less-ink.txt", 4), ("less-ink.job", 3)):
            _, _, err = self.scratch.run("foil-slip", name, cwd=self.folder)
            self.assertIn("\n%5d  track 2 1 5 7 3  refused (8)" % line, err)

    def test_bytes_tell_a_text_from_a_job_file_and_names_do_not(self):
        for name, other in (("less-ink.txt", "a-text.job"), ("less-ink.job", "a-job.txt")):
            self.folder.joinpath(other).write_bytes(self.folder.joinpath(name).read_bytes())
            for status, _, err in self.run_all(other, commands=COMMANDS[1:]):
                self.assertEqual(status, 1, err)
            self.assertEqual(self.job_given(), given.SAMPLES.joinpath("less-ink.job").read_bytes())

    def test_every_job_with_an_accepted_board_is_told_from_a_text(self):
        for name in given.NAMES:
            text, made = (given.SAMPLES.joinpath(name + suffix).read_bytes() for suffix in (".txt", ".job"))
            self.assertEqual([sources.Source(None, given_bytes).is_job for given_bytes in (text, made)], [False, True])
        for chance in given.seeds(100):
            made = given.random_file(chance)
            self.assertTrue(sources.Source(None, b"\x01\x01\x10\x01\x10\x0f\x00" + made).is_job)
        self.assertFalse(sources.Source(None, "board 9 9 0\n".encode("utf-16")).is_job)

    def test_a_text_that_cannot_be_read(self):
        self.folder.joinpath("bad.txt").write_text("board 9 9 0\ntrak 1\nend\n")
        for status, out, err in self.run_all("bad.txt"):
            self.assertEqual((status, out, err.split(": ")[0]), (2, "", "bad.txt, line 2"))

    def test_what_is_not_there(self):
        for told in self.run_all("none.txt"):
            self.assertEqual(told, (4, "", "none.txt: No such file or directory\n"))

    def test_more_than_a_job_can_have(self):
        self.folder.joinpath("endless.txt").write_bytes(b"# a remark\n" * 400_000)
        for status, out, err in self.run_all("endless.txt"):
            self.assertEqual((status, out, err.count("\n")), (2, "", 1))

    def test_what_is_read_is_not_written(self):
        path = self.folder / "same.job"
        for command in COMMANDS:
            for streams in (">> same.job", "< same.job >> same.job"):
                path.write_bytes(given.SAMPLES.joinpath("less-ink.job").read_bytes())
                status, _, err = self.scratch.run(*command, "same.job" if "<" not in streams else "-", streams=streams,
                                                  cwd=self.folder)
                self.assertEqual((status, "send that to another file" in err), (4, True), err)
                self.assertEqual(path.read_bytes(), given.SAMPLES.joinpath("less-ink.job").read_bytes())

    def test_through_links_from_any_folder_and_without_that_of_the_script(self):
        for command in COMMANDS:
            link = self.folder / ("a-" + command[0])
            link.symlink_to(self.scratch.root / command[0])
            again = self.folder / ("b-" + command[0])
            again.symlink_to(link.name)
            for path, folder in ((link, "/"), (again, self.folder), (self.scratch.root / command[0], "/")):
                for python in ([], ["-I"]):
                    told = self.scratch.run(path, *command[1:], self.folder / "less-ink.txt", cwd=folder, python=python)
                    self.assertEqual((told[0], bool(told[1])), (1, True), told)

    def test_every_script_says_what_it_does_not_understand(self):
        for script, *words in (("install",), ("install", "a", "b"), ("tools/built",), ("samples/make", "none.txt"),
                               ("samples/make", "a", "b"), ("samples/make", "--what"), ("foil-ohms", "1", "2", "3")):
            done = subprocess.run([sys.executable, "-I", program.ROOT / script, *words], cwd=self.folder,
                                  capture_output=True, text=True)
            self.assertEqual((done.returncode, done.stdout, "Traceback" in done.stderr), (4, "", False), done.stderr)
            self.assertTrue(0 < done.stderr.count("\n") <= 2, done.stderr)

    def test_an_older_python(self):
        script = "import sys; sys.version_info = (3, 8, 18); sys.argv = ['foil']; import desk"
        done = subprocess.run([sys.executable, "-B", "-c", script], cwd=program.ROOT, capture_output=True, text=True)
        self.assertEqual((done.returncode, done.stdout, done.stderr), (
            5, "", "the desk's tools want Python 3.9 or later, and this is 3.8\n"))

    def test_a_mistake_of_the_tools_is_one_line(self):
        self.scratch.write("desk/mistaken.py", "from desk import statuses\nprint(statuses.ended(lambda: {}[7]))\n")
        done = subprocess.run([sys.executable, "-B", "-c", "import desk.mistaken"], cwd=self.scratch.root,
                              capture_output=True, text=True)
        self.assertEqual((done.stdout, done.stderr), (
            "5\n", "a mistake in the desk's own tools, at mistaken.py, line 2: KeyError: 7\n"))


class Terminal(unittest.TestCase):
    """At a terminal of so many columns."""

    def run_at(self, columns, script, *words, streams=(0, 2)):
        """The status of a command whose streams are a terminal, and what stands there."""
        ours, theirs = pty.openpty()
        ioctl(theirs, TIOCSWINSZ, struct.pack("HHHH", 24, columns, 0, 0))
        plain = {0: subprocess.DEVNULL, 1: subprocess.DEVNULL, 2: subprocess.DEVNULL, **dict.fromkeys(streams, theirs)}
        with subprocess.Popen([sys.executable, program.ROOT / script, *words], stdin=plain[0], stdout=plain[1],
                              stderr=plain[2]) as running:
            os.close(theirs)
            shown = b""
            while select.select([ours], [], [], PATIENCE)[0]:
                try:
                    shown += os.read(ours, 4096)
                except OSError:
                    break
            else:
                running.kill()
        os.close(ours)
        return running.returncode, shown.decode().replace("\r\n", "\n")

    def test_nothing_is_waited_for_where_no_file_is_named(self):
        for command in COMMANDS:
            status, shown = self.run_at(80, *command)
            self.assertEqual((status, "no file is named" in " ".join(shown.split())), (4, True))

    def test_errors_fit(self):
        folder = tempfile.TemporaryDirectory()
        self.addCleanup(folder.cleanup)
        bad = pathlib.Path(folder.name) / "bad.txt"
        bad.write_text("board 9 9 0\ntrak 1\nlift 1, lift 2\nlift 1,000\nend\n")
        for columns in (30, 48, 80):
            for words in (("foil", bad), ("foil-slip", bad), ("foil-ohms",), ("install",), ("foil", "--strips", "x"),
                          ("tools/built", "a_program_that_is_not_there"), ("samples/make", "--what")):
                status, shown = self.run_at(columns, *words)
                self.assertTrue(status in (2, 4, 5) and shown)
                self.assertLessEqual(max(map(len, shown.splitlines())), columns, shown)
                self.assertNotIn("Traceback", shown)

    def test_help_fits(self):
        for columns in (50, 80):
            for script in ("foil-job", "foil-slip", "foil-save", "foil-ohms", "install"):
                status, shown = self.run_at(columns, script, "--help", streams=(1,))
                self.assertEqual(status, 0)
                self.assertLessEqual(max(map(len, shown.splitlines())), columns, shown)

    def test_no_job_file_for_a_terminal(self):
        status, shown = self.run_at(80, "foil-save", given.SAMPLES / "less-ink.txt", streams=(1, 2))
        self.assertEqual(status, 4)
        self.assertIn("> SAVED.job", " ".join(shown.split()))


class Clone(unittest.TestCase):
    def test_readme_s_commands_leave_nothing_for_git(self):
        readme = program.ROOT.joinpath("README.md").read_text(encoding="utf-8")
        written = re.findall(r"(?:--picture|--job|>) ([\w.-]+\.\w+)", readme)
        self.assertTrue({"less-ink.svg", "saved.job"} <= set(written), written)
        if not program.ROOT.joinpath(".git").exists():
            self.skipTest("this is no clone")
        for name in written:
            asked = subprocess.run(["git", "check-ignore", "-q", name], cwd=program.ROOT)
            self.assertEqual(asked.returncode, 0, name)


if __name__ == "__main__":
    unittest.main()
