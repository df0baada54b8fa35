"""The line that says how far proving is."""
import contextlib
import io
import os
import pathlib
import re
import tempfile
import time
import unittest
from unittest import mock

from desk import console, progress


class Terminal(io.StringIO):
    """What stands for a terminal."""

    def isatty(self):
        return True


class Lines(unittest.TestCase):
    def setUp(self):
        folder = tempfile.TemporaryDirectory()
        self.addCleanup(folder.cleanup)
        self.logs = pathlib.Path(folder.name)

    def begin(self, crate):
        """A crate as it is while it is being proved."""
        self.logs.joinpath(crate + ".res").write_text("failed\n")
        self.logs.joinpath(crate + ".say").write_text("")

    def end(self, crate, result="proved"):
        """A crate that is proved."""
        self.logs.joinpath(crate + ".res").write_text(result + "\n")

    def test_at_a_terminal_the_line_moves_by_itself(self):
        with contextlib.redirect_stderr(Terminal()) as err, mock.patch.object(progress, "PACE", 0.01), \
                mock.patch.dict(os.environ, RT_JOBS="2"), \
                mock.patch.object(console, "width", return_value=80), \
                mock.patch.object(progress, "clock", lambda seconds: "%.2f" % seconds):
            with progress.Progress(["laws", "foil", "job"], {}, self.logs):
                self.begin("laws")
                time.sleep(0.3)
        shown = err.getvalue().split("\r\033[K")
        self.assertEqual((shown[0], shown[-1], re.sub(r"0\.\d\d", "0:00", shown[1])),
                         ("", "", "proving: 3 of 3 crates left, 0:00 so far, about 40:00 to go"))
        moved = [line for line in shown if line.startswith("proving laws: 3 of 3 crates left, 0.")]
        self.assertGreater(len(set(moved)), 3, shown)
        self.assertLess(max(map(len, shown)), 80)
        self.assertNotIn("\n", err.getvalue())

    def test_what_is_being_proved(self):
        with contextlib.redirect_stderr(io.StringIO()):
            shown = progress.Progress(["laws", "foil", "job", "list"], {}, self.logs)
        self.assertEqual(shown.under_way(), [])
        for crate in ("laws", "foil"):
            self.begin(crate)
        self.assertEqual(shown.under_way(), ["laws", "foil"])
        self.end("laws")
        self.assertEqual(shown.under_way(), ["foil"])
        self.end("foil", "built")
        self.assertEqual(shown.under_way(), [])
        self.begin("job")
        with contextlib.redirect_stderr(io.StringIO()):
            shown.follow("rt: job proved (3 s)\n")
        self.assertEqual((shown.under_way(), shown.left), ([], ["laws", "foil", "list"]))

    def test_logs_of_another_run(self):
        self.begin("laws")
        with contextlib.redirect_stderr(io.StringIO()):
            shown = progress.Progress(["laws"], {}, self.logs)
        shown.began += 60
        self.assertEqual(shown.under_way(), [])

    def test_a_library_that_has_an_old_result(self):
        self.end("host")
        self.logs.joinpath("host.say").write_text("")
        before = time.time() - 0.5
        os.utime(self.logs / "host.res", (before, before))
        with contextlib.redirect_stderr(io.StringIO()):
            shown = progress.Progress(["host"], {}, self.logs)
        self.assertEqual(shown.under_way(), ["host"])

    def test_elsewhere_a_line_for_each_crate(self):
        with contextlib.redirect_stderr(io.StringIO()) as err:
            with progress.Progress(["laws", "foil"], {}, self.logs) as shown:
                for line in ("fn laws::a: proved\n", "rt: laws proved (3 s)\n", "rt: laws proved (3 s)\n",
                             "rt: another proved (1 s)\n", "rt: foil proved (unchanged since it was last proved)\n"):
                    shown.follow(line)
        self.assertEqual(err.getvalue(), (
            "proving and building: 2 of 2 crates left, 0:00 so far, about 0:20 to go\n"
            "proving and building: laws is proved, 1 of 2 crates left, 0:00 so far, about 0:20 to go\n"
            "proving and building: foil is proved, 0 of 2 crates left, 0:00 so far, about 0:00 to go\n"))


if __name__ == "__main__":
    unittest.main()
