"""Two runs at once in a repository that is not built: one builds, and the other waits for it and goes on by itself."""
import shutil
import signal
import time
import unittest

from desk import building, program
from desk.tests.scratch import Scratch


class TwoRuns(unittest.TestCase):
    def setUp(self):
        self.scratch = Scratch()
        self.addCleanup(self.scratch.remove)
        self.addCleanup(self.rest)
        self.scratch.write("../tools/slow", "0.8\n")

    def rest(self):
        """Waits until no check runs any more."""
        patience = time.monotonic() + 20
        while self.scratch.tools.joinpath("busy").exists() and time.monotonic() < patience:
            time.sleep(0.01)

    def start(self, name):
        """A run that asks for a program."""
        return self.scratch.start("tools/built", name)

    def begun(self, name):
        """A run that asks for a program, and has come to its check."""
        running = self.start(name)
        while not self.scratch.tools.joinpath("calls").exists():
            self.assertIsNone(running.poll(), "it ended before its check")
            time.sleep(0.01)
        return running

    def ended(self, running):
        """Waits for a run: its status, what it prints, and what it says on standard error."""
        with running:
            out, err = running.communicate()
        return running.returncode, out, err

    def path(self, name):
        """What is printed for a program."""
        return "%s\n" % (self.scratch.root / "target" / "bin" / name)

    def test_the_second_waits_and_finds_the_program_built(self):
        first, second = self.begun("job_main"), self.start("job_main")
        self.assertEqual(self.ended(second), (0, self.path("job_main"), building.WAITS + "\n"))
        status, out, err = self.ended(first)
        self.assertEqual((status, out, building.WAITS in err), (0, self.path("job_main"), False))
        self.assertEqual(self.scratch.calls(), ["check job_main"])

    def test_runs_for_two_programs(self):
        first, second = self.begun("job_main"), self.start("slip_main")
        status, out, err = self.ended(second)
        self.assertEqual((status, out, err.splitlines()[0]), (0, self.path("slip_main"), building.WAITS))
        self.assertEqual(self.ended(first)[:2], (0, self.path("job_main")))
        self.assertEqual(self.scratch.calls(), ["check job_main", "check slip_main"])

    def test_many_runs_from_the_start(self):
        runs = [self.start("job_main") for _ in range(5)]
        for status, out, err in map(self.ended, runs):
            self.assertEqual((status, out), (0, self.path("job_main")), err)
        self.assertEqual(self.scratch.calls(), ["check job_main"])

    def test_the_lock_does_not_go_with_target(self):
        self.scratch.write("../tools/slow", "2\n")
        first = self.begun("job_main")
        shutil.rmtree(self.scratch.root / "target")
        second = self.start("job_main")
        self.assertEqual(self.ended(second), (0, self.path("job_main"), building.WAITS + "\n"))
        self.assertEqual(self.ended(first)[0], 0)
        self.assertEqual(self.scratch.calls(), ["check job_main"])

    def test_a_check_outlives_the_run_that_began_it(self):
        first = self.begun("job_main")
        first.kill()
        second = self.start("job_main")
        status, out, err = self.ended(second)
        self.assertEqual((status, out, err.splitlines()[0]), (0, self.path("job_main"), building.WAITS))
        self.ended(first)
        self.assertNotIn("two checks at once", self.scratch.calls())

    def test_a_check_that_fails_is_told_by_both(self):
        self.scratch.write("../tools/fails", "rt: laws NOT PROVED\n")
        first, second = self.begun("job_main"), self.start("job_main")
        for status, out, err in map(self.ended, (first, second)):
            self.assertEqual((status != 0, out, "rt: laws NOT PROVED" in err, "PATH" in err), (True, "", True, False))
        self.assertEqual(self.scratch.calls(), ["check job_main"] * 2)

    def test_a_run_that_is_stopped(self):
        first = self.begun("job_main")
        second = self.start("job_main")
        self.assertEqual(second.stderr.readline(), building.WAITS + "\n")
        for running in (first, second):
            running.send_signal(signal.SIGINT)
            status, out, err = self.ended(running)
            self.assertEqual((status, out, err.splitlines()[-1]), (130, "", "stopped"))

    def test_git_does_not_see_the_lock(self):
        ignored = program.ROOT.joinpath(".gitignore").read_text().splitlines()
        self.assertIn(building.LOCK.relative_to(program.ROOT).as_posix(), ignored)


if __name__ == "__main__":
    unittest.main()
