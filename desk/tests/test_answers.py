"""The commands that ask the foil, against the proved programs, where these are built. What they are to print is made
here from the lines of the job program: slip, saved file and ohms by their definitions."""
import contextlib
import io
import os
import re
import sys
import unittest
from unittest import mock

from desk import asking, building, foils, job, lines, program, sources, statuses, textform
from desk.tests import given

PATHS = {question: given.BUILT.with_name(question.program) for question in (asking.SLIP, asking.SAVE, asking.OHMS)}
MISSING = [str(path) for path in PATHS.values() if not os.access(path, os.X_OK)]
SHEET, WIDTH, BEND = 0.3, 3.0, 0.7
INK = ["--sheet", str(SHEET), "--width", str(WIDTH), "--bend", str(BEND), "--exact"]


def entries_of(run):
    """The table that a run leaves: a net, 0 for a patch, and a box each, in the order in which they were put in."""
    entries = []
    for _, step, said in run.outcomes[1:]:
        if said.number == 0:
            if step.word == "lift":
                entries = [entry for entry in entries if entry[0] != step.net]
            elif step.word == "track":
                entries += [(step.net, box) for box in foils.boxes_of(said.corners)]
            else:
                entries.append((step.net or 0, step.numbers[-4:]))
    return entries


def nets_of(entries):
    """The nets of a table, rising, each with its legs."""
    return [(net, [box for of, box in entries if of == net]) for net in sorted({net for net, _ in entries} - {0})]


def slip(run):
    """The slip of the foil that a run leaves."""
    shown = ""
    for net, legs in nets_of(entries_of(run)):
        length = sum(map(foils.steps_in, legs))
        shown += "%3d  %3d  %6d  %4d  %4d    \n" % (net, len(legs), length, *legs[0][:2])
    return shown.encode()


def saved(run):
    """The file of the foil that a run leaves."""
    board = run.outcomes[0].step
    steps = [job.Step("board", board.numbers[:2] + (0,) + tuple(board.pen))]
    steps += [job.Step("leg", (net, *box)) if net else job.Step("patch", box) for net, box in entries_of(run)]
    return b"".join(job.record_bytes([step]) for step in steps) + b"\0"


def ohms(run):
    """The ohms of the nets that a run leaves."""
    rows = [(net, (sum(map(foils.steps_in, legs)) / WIDTH + BEND * (len(legs) - 1)) * SHEET)
            for net, legs in nets_of(entries_of(run))]
    return "".join("%d %r\n" % row for row in rows).encode()


@given.with_program
@unittest.skipIf(MISSING, "not built: %s; the command of each builds it" % ", ".join(MISSING))
class Answers(unittest.TestCase):
    def ask(self, question, given_words, made):
        """The status of a question about a job's foil, what is printed, and what is said on standard error."""
        out, err = io.TextIOWrapper(io.BytesIO()), io.StringIO()
        with mock.patch.object(building, "built", return_value=[given.BUILT, PATHS[question]]), \
                mock.patch.object(sys, "stdin", io.TextIOWrapper(io.BytesIO(made))), \
                contextlib.redirect_stdout(out), contextlib.redirect_stderr(err):
            status = statuses.ended(lambda: asking.ask(question, given_words))
        return status, out.buffer.getvalue(), err.getvalue()

    def hold(self, made):
        """Holds all three answers for a job to what its lines ask for."""
        written = program.run(given.BUILT, made)
        run = lines.run_of(made, written)
        refused = len(re.findall(r"(?m)^(board|patch|(track|lift|leg) \d+) [1-9]\d*$", written))
        early = re.search(r"(?m)^(file \d+|board [1-9]\d*)$", written)
        for question, words, right in ((asking.SLIP, [], slip), (asking.SAVE, [], saved), (asking.OHMS, INK, ohms)):
            status, out, err = self.ask(question, words, made)
            if not sources.Source(None, made).is_job:
                self.assertTrue(early, "a job file with a foil is taken for a text")
                self.assertEqual((status, out, bool(err)), (2, b"", True))
                continue
            self.assertEqual(status, 2 if early else 1 if refused else 0, err)
            self.assertEqual(out, b"" if early else right(run))
            self.assertEqual(err.count("refused ("), refused)
            self.assertEqual(err.count("at fault ("), 1 if early and early[0].startswith("file") else 0)

    def test_samples(self):
        for name in given.NAMES:
            with self.subTest(name):
                self.hold(given.SAMPLES.joinpath(name + ".job").read_bytes())

    def test_random_jobs(self):
        for chance in given.seeds(40):
            self.hold(textform.read(given.random_text(chance, largest=chance.choice([6, 20, 60]), most=20)).job)

    def test_random_files(self):
        for chance in given.seeds(120):
            self.hold(given.random_file(chance))

    def test_figures_out_of_their_range(self):
        made = given.SAMPLES.joinpath("less-ink.job").read_bytes()
        for figures in ("0 2 0.5", "1001 2 0.5", "nan 2 0.5", "inf 2 0.5", "0.5 0.9 0.5", "0.5 65 0.5", "0.5 2 -1",
                        "0.5 2 4.5"):
            sheet, width, bend = figures.split()
            status, out, err = self.ask(asking.OHMS, ["--sheet=" + sheet, "--width=" + width, "--bend=" + bend], made)
            self.assertEqual((status, out, err.count("refused (22)"), err.count("refused (8)")), (3, b"", 1, 1))
            self.assertEqual(len(re.findall(r"(?m)^--(sheet|width|bend) \S+: ", err)), 1)


if __name__ == "__main__":
    unittest.main()
