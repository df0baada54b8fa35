"""The command ./foil-screen: its words, its address, and that it ends when it is told to."""
import os
import pathlib
import re
import signal
import subprocess
import sys
import tempfile
import unittest
import urllib.request

from desk import program
from screen.tests import given


class Command(unittest.TestCase):
    def setUp(self):
        self.folder = tempfile.TemporaryDirectory()
        self.addCleanup(self.folder.cleanup)

    def start(self, *words):
        """Starts the command on an orders' folder of its own."""
        script = [sys.executable, program.ROOT / "foil-screen", "--no-browser"]
        return subprocess.Popen(
            [*script, "--orders", self.folder.name + "/orders", *words], stdin=subprocess.DEVNULL, text=True,
            stdout=subprocess.PIPE, stderr=subprocess.PIPE, env={**os.environ, "FOIL_LIBRARY": str(given.FOUND)})

    def said(self, *words):
        """What the command says where it does not serve: its status and its words."""
        with self.start(*words) as running:
            out, err = running.communicate(timeout=60)
        return running.returncode, out, err

    def test_words_that_it_does_not_understand(self):
        for words in (("--port", "x"), ("--port", "70000"), ("--what",), ("no-such-order",), ("a", "b"), ("../x",)):
            with self.subTest(words):
                self.assertEqual(self.said(*words)[:2], (4, ""))

    def test_a_linked_order(self):
        outside, orders = pathlib.Path(self.folder.name) / "outside", pathlib.Path(self.folder.name) / "orders"
        outside.mkdir()
        outside.joinpath("linked.txt").write_text("board 3 3 0\nend\n")
        orders.mkdir()
        orders.joinpath("linked").symlink_to(outside)
        for word in ("linked", str(orders / "linked"), str(orders / "linked" / "linked.txt")):
            status, out, err = self.said(word)
            self.assertEqual((status, out, "is a link" in err), (4, "", True), err)

    def test_help(self):
        self.assertEqual(self.said("--help")[0], 0)

    def test_a_text_that_is_no_text(self):
        path = pathlib.Path(self.folder.name) / "odd.txt"
        path.write_bytes(b"board 9 9 0 # \xff\n")
        self.assertEqual(self.said(str(path))[0], 4)

    @given.with_library
    def test_it_serves_a_text_until_it_is_told_to_end(self):
        for how, status in ((signal.SIGTERM, 0), (signal.SIGINT, 130)):
            with self.start(str(given.SAMPLES / "less-ink.txt")) as running:
                address = running.stdout.readline().strip()
                self.assertTrue(re.fullmatch(r"http://127\.0\.0\.1:\d+/[\w-]{32}/", address), address)
                with urllib.request.urlopen(address + "file/text?foil=0") as got:
                    self.assertEqual(got.read().decode(), given.sample("less-ink"))
                running.send_signal(how)
                running.communicate(timeout=30)
            self.assertEqual(running.returncode, status)

    @given.with_library
    def test_a_port_that_another_has(self):
        with self.start() as running:
            port = re.search(r":(\d+)/", running.stdout.readline())[1]
            status, out, err = self.said("--port", port)
            self.assertEqual((status, out), (4, ""))
            self.assertIn("cannot be had", err)
            running.terminate()
            running.communicate(timeout=30)

    @given.with_library
    def test_a_killed_server_loses_no_text(self):
        """The page's text is changed, the server is killed, and the next one shows the change."""
        with self.start() as running:
            page = Client(running.stdout.readline().strip())
            page.change("text", foil=0, text=given.SMALL)
            running.kill()
            running.communicate(timeout=30)
        with self.start() as running:
            page = Client(running.stdout.readline().strip())
            state = page.ask("state")["answer"]
            self.assertEqual(state["foil"]["text"], given.SMALL)
            self.assertIn("never saved", state["order"]["draft"])
            running.terminate()
            self.assertIn("not saved", running.communicate(timeout=30)[1])


    @given.with_library
    def test_a_further_tab_begins_as_the_first_did(self):
        with self.start(str(given.SAMPLES / "less-ink.txt")) as running:
            address = running.stdout.readline().strip()
            first = Client(address)
            first.change("text", foil=0, text=given.SMALL)
            second = Client(address, "two").state()
            self.assertEqual((second["foil"]["text"], second["order"]["name"]), (given.sample("less-ink"), "less-ink"))
            self.assertIn("another screen has this order open", second["order"]["other"])
            self.assertEqual(first.state()["foil"]["text"], given.SMALL)
            running.terminate()
            self.assertIn("not saved", running.communicate(timeout=30)[1])


class Client(given.Page):
    """A page of a server in another process, by its address."""

    class At:
        """What a page knows of its server."""

        def __init__(self, address):
            self.host, self.token = address.removeprefix("http://").rstrip("/").split("/")
            name, port = self.host.split(":")
            self.server_address = (name, int(port))

    def __init__(self, address: str, screen: str = "one") -> None:
        super().__init__(self.At(address), screen)
        self.ask("state")
