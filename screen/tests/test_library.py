"""The library in a process of its own: killed, stuck, absent. No text is lost, and what could not be asked is said."""
import os
import pathlib
import signal
import tempfile
import threading
import time
import unittest
import unittest.mock

from screen import library
from screen.tests import given


class Ended(given.Served):
    def setUp(self):
        super().setUp()
        self.have(given.SMALL)
        self.page.change("draw", foil=2, box=[0, 0, 1, 1])
        self.before = self.page.state()

    def kill(self, how=signal.SIGKILL):
        """Ends the library's process, as a crash would."""
        told = self.page.ask("free_net", foil=0)["library"]
        os.kill(told["pid"], how)
        os.waitid(os.P_PID, told["pid"], os.WEXITED | os.WNOWAIT)
        return told

    def stop(self):
        """Stops the library's process, so that it does not answer: its number."""
        pid = self.page.ask("free_net", foil=0)["library"]["pid"]
        os.kill(pid, signal.SIGSTOP)
        os.waitid(os.P_PID, pid, os.WSTOPPED | os.WNOWAIT)
        return pid

    def test_a_process_that_was_killed_is_started_anew(self):
        for how in (signal.SIGKILL, signal.SIGSEGV):
            before = self.kill(how)
            told = self.page.ask("state", foil=0)
            self.assertEqual(told["answer"], self.before)
            self.assertEqual(told["library"]["generation"], before["generation"] + 1)
            self.assertNotEqual(told["library"]["pid"], before["pid"])
            self.assertIn("answer", self.page.ask("look_up", foil=0, x=0, y=0))

    def test_a_watch_is_told_of_it(self):
        before = self.page.ask("free_net", foil=0)
        threading.Timer(0.3, os.kill, [before["library"]["pid"], signal.SIGKILL]).start()
        since = time.monotonic()
        told = self.page.ask("watch", version=before["version"], generation=before["library"]["generation"],
                             screens=before["screens"])
        self.assertLess(time.monotonic() - since, 10)
        self.assertFalse(told["library"]["standing"])
        self.assertIn("signal 9", told["library"]["why"])
        self.assertEqual(self.page.state(), self.before)

    def test_a_crash_while_it_is_asked(self):
        """The process is stopped while it is asked, and then killed."""
        threading.Timer(1, os.kill, [self.stop(), signal.SIGKILL]).start()
        told = self.page.change("lay", foil=0, net=7, **{"from": [0, 8], "to": [8, 8]})
        self.assertEqual(self.page.status, 503)
        self.assertIn("signal 9", told["unasked"]["why"])
        self.assertEqual(told["unasked"]["texts"][0], given.SMALL)
        self.assertEqual(self.page.state(), self.before)
        self.assertIn("answer", self.page.change("lay", foil=0, net=7, **{"from": [0, 8], "to": [8, 8]}))

    def test_one_that_does_not_answer(self):
        self.library.longest = 0.4
        self.addCleanup(setattr, self.library, "longest", library.LONGEST)
        pid = self.stop()
        told = self.page.ask("look_up", foil=0, x=0, y=0)
        self.assertIn("not answered", told["unasked"]["why"])
        with self.assertRaises(ProcessLookupError):
            os.kill(pid, 0)
        self.library.longest = library.LONGEST
        self.assertEqual(self.page.state(), self.before)

    def test_one_that_is_not_there(self):
        for path in ("/nowhere/libfoil.so", __file__):
            self.library.stop()
            self.library.path = pathlib.Path(path)
            told = self.page.ask("state", foil=0)
            self.assertEqual(self.page.status, 503)
            self.assertIn("cannot be loaded", told["unasked"]["why"])
            self.assertEqual(told["unasked"]["texts"][0], given.SMALL)
            self.assertFalse(told["library"]["standing"])
            self.page.get("file/text?foil=0")
            self.assertEqual(self.page.status, 200)
            self.assertEqual(self.page.get("print/carton?foil=0")[:11], b"the library")
        saved = self.page.change("save", name="dark")
        self.library.path = given.FOUND
        self.assertIn("unasked", saved)
        self.assertEqual((self.folder / "orders" / "dark" / "dark.txt").read_text(), given.SMALL)
        self.assertEqual(self.page.state()["foil"], self.before["foil"])


class Processes(unittest.TestCase):
    """Processes that stand for the library's own."""

    def why(self, script):
        """Why a process that runs a script is not asked."""
        with tempfile.TemporaryDirectory() as folder:
            path = pathlib.Path(folder) / "process.py"
            path.write_text(script)
            with unittest.mock.patch.object(library, "PROCESS", path):
                made = library.Library("/nowhere", longest=20)
                with self.assertRaises(library.Unasked) as raised:
                    made.start()
                    made.put({"ask": "what"})
        self.assertFalse(made.standing)
        self.assertEqual((made.seen()["pid"], made.seen()["why"]), (None, str(raised.exception)))
        return str(raised.exception)

    def test_what_is_no_answer(self):
        self.assertIn("no answer", self.why("print('what')\nimport time; time.sleep(60)"))
        self.assertIn("no answer", self.why("print('{\"absent\": \"\"}')\nprint('{')"))

    def test_one_that_ends(self):
        self.assertIn("status 3", self.why("import sys; sys.exit(3)"))
        self.assertIn("status 0", self.why("print('{\"absent\": \"\"}', flush=True)\ninput()"))
        self.assertIn("cannot be loaded", self.why("print('{\"absent\": \"it cannot be loaded\"}')"))

    def test_one_that_is_killed_while_it_is_asked(self):
        self.assertIn("signal 11", self.why("import os\nprint('{\"absent\": \"\"}', flush=True)\ninput()\n"
                                            "os.kill(os.getpid(), 11)"))
