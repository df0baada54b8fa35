"""Other pages, names of orders, two tabs, a killed server and a library that was killed or is not there: nothing is
written by others, and no text is lost."""
import http.server
import os
import pathlib
import signal
import subprocess
import sys
import threading
import time
from typing import Tuple

from desk import program
from screen.tests import given
from screen.tests.browser import browsing, expected
from screen.tests.browser.browsing import ESCAPE

OTHER = "board 5 5 0\nend\n"

# all that a page from elsewhere can try, though it knows the address: what came of each
ATTACK = """
const [address, body, done] = arguments, api = address + "api/text", came = {};
const tried = async (name, act) => { try { came[name] = await act(); } catch (fault) { came[name] = "barred"; } };
const framed = (name, make) => tried(name, () => new Promise(resolve => {
  const frame = document.createElement("iframe");
  frame.name = name;
  document.body.append(frame);
  make(frame);
  setTimeout(() => {
    try { resolve(frame.contentDocument ? frame.contentDocument.title || "empty" : "barred"); }
    catch { resolve("barred"); }
  }, 700);
}));
(async () => {
  const json = { "Content-Type": "application/json" };
  await tried("post", async () => (await fetch(api, { method: "POST", headers: json, body })).status);
  await tried("blind", async () => (await fetch(api, { method: "POST", mode: "no-cors", body })).type);
  await tried("beacon", async () => navigator.sendBeacon(api, new Blob([body], { type: "text/plain" })));
  await tried("read", async () => (await fetch(address + "file/text?foil=0")).text());
  await framed("form", frame => {
    const form = document.createElement("form"), field = document.createElement("input");
    Object.assign(form, { method: "post", action: api, enctype: "text/plain", target: frame.name });
    Object.assign(field, { name: body.slice(0, -1) + ',"more":"', value: '"}' });
    form.append(field);
    document.body.append(form);
    form.submit();
  });
  await framed("page", frame => { frame.src = address; });
  done(came);
})();
"""


class Elsewhere(http.server.BaseHTTPRequestHandler):
    """A page from elsewhere."""

    def do_GET(self):
        """The page."""
        self.send_response(200)
        self.send_header("Content-Type", "text/html")
        self.end_headers()
        self.wfile.write(b"<!DOCTYPE html><title>elsewhere</title><p>elsewhere")

    def log_message(self, *_):
        """Nothing is logged."""


class OtherPages(browsing.Seen):
    def test_a_page_from_elsewhere_writes_nothing(self):
        self.begin(given.SMALL)
        before = self.page.state()
        server = http.server.ThreadingHTTPServer(("127.0.0.1", 0), Elsewhere)
        thread = threading.Thread(target=server.serve_forever, args=[0.02])
        thread.start()
        for last in (thread.join, server.server_close, server.shutdown):
            self.addCleanup(last)
        driver = self.tab.driver
        body = '{"version":%d,"foil":0,"text":"%s"}' % (before["version"], OTHER.replace("\n", "\\n"))
        for host in ("127.0.0.1", "localhost"):
            driver.get("http://%s:%d/" % (host, server.server_address[1]))
            came = driver.execute_async_script(ATTACK, self.server.address, body)
            with self.subTest(host):
                self.assertEqual((came["post"], came["read"]), ("barred", "barred"), came)
                self.assertNotIn("foil", came["page"])
                self.assertEqual(self.page.state()["foil"]["text"], given.SMALL)
                self.assertEqual(self.page.state()["version"], before["version"])
                self.assertEqual(self.page.state()["undo"], before["undo"])

    def test_the_page_itself_may_write(self):
        self.begin(given.SMALL)
        self.tab.type_text(OTHER)
        self.assertEqual(self.foil()["text"], OTHER)

    def test_no_name_leaves_the_orders_folder(self):
        self.begin(given.SMALL)
        for name in ("../outside", "..", "a/../../b", "/tmp/outside"):
            with self.subTest(name):
                self.tab.press_button("#save-as").type_name(name)
                self.tab.wait("document.querySelector('#dialog .said').textContent")
                self.tab.press_button("#dialog-close")
                self.assertEqual(sorted(path.name for path in self.folder.rglob("*")
                                        if ".screen" not in path.parts), ["orders"])
        for rest in ("../", "../../etc/passwd", "file/../../../etc/passwd", "..%2f..%2fetc/passwd", "page/../main.js",
                     "../%s/main.js" % self.server.token, "print/..%2f..%2fcommand.py"):
            self.page.get(rest)
            self.assertIn(self.page.status, (400, 403, 404), rest)


class TwoTabs(browsing.Seen):
    FIRST, SECOND = "board 12 12 0\nend\n", "board 9 9 0\nend\n"

    def setUp(self) -> None:
        super().setUp()
        self.begin(self.FIRST)
        self.second = self.tab.other(self.server.address)

    def test_each_has_its_own_order_and_steps_back(self) -> None:
        self.assertEqual((self.second.text, self.page.ask("state")["screens"]), ("", 2))
        self.second.type_text(self.SECOND)
        self.tab.front().hold("lay").click((1, 1)).click((9, 6))
        laid = self.tab.text
        self.assertEqual(laid, "board 12 12 0\ntrack 1 1 1 9 6\nend\n")
        self.assertIn("2 tabs", self.tab.words("screens"))
        self.second.front().keys(ESCAPE).with_ctrl("z")
        self.assertEqual((self.second.text, self.second.shown("drawn")["tracks"]), ("", []))
        self.assertEqual((self.tab.front().text, self.foil()["text"]), (laid, laid))
        self.tab.with_ctrl("z")
        self.assertEqual((self.tab.text, self.second.front().text), (self.FIRST, ""))

    def test_each_tab_is_counted_once(self) -> None:
        self.assertEqual(self.page.ask("state")["screens"], 2)
        self.second.type_text(self.SECOND).driver.refresh()
        self.assertEqual((self.second.idle().text, self.page.ask("state")["screens"]), (self.SECOND, 2))

    def test_a_copy_of_a_tab_is_another_tab(self) -> None:
        """A browser that copies a tab copies its storage too."""
        self.second.type_text(self.SECOND)
        self.second.js("sessionStorage.setItem('screen', arguments[0])", self.page.screen)
        self.second.driver.refresh()
        self.assertEqual(self.second.idle().text, self.SECOND)
        self.assertNotEqual(self.second.shown("screen"), self.page.screen)
        self.assertEqual((self.tab.front().text, self.page.ask("state")["screens"]), (self.FIRST, 2))

    def test_the_same_order_in_both_is_asked_about(self) -> None:
        self.tab.front().with_ctrl("s").type_name("keys")
        self.tab.wait("document.getElementById('said').textContent.startsWith('Saved: ')")
        self.second.front().with_ctrl("o")
        self.second.wait("document.querySelector('[data-order=keys]')")
        self.assertIn("another screen has it open", self.second.words("dialog"))
        self.second.press_button("[data-order=keys] button").wait("screenState.warnings.other")
        self.assertEqual(self.second.idle().text, self.FIRST)
        self.second.type_text(self.SECOND).keys(ESCAPE).with_ctrl("s")
        self.second.wait("document.getElementById('dialog-head').textContent === 'Written over?'")
        self.second.press_button("#dialog-close")
        self.assertEqual((self.folder / "orders" / "keys" / "keys.txt").read_text(), self.FIRST)
        self.assertEqual(self.tab.front().text, self.FIRST)


class Met(browsing.Seen):
    """The order of a tab is changed while something is typed into its text that the server has not got."""

    def online(self, there: bool) -> None:
        """Takes the net from the window in front, or gives it back."""
        self.tab.driver.execute_cdp_cmd("Network.enable", {})
        self.tab.driver.execute_cdp_cmd("Network.emulateNetworkConditions", {
            "offline": not there, "latency": 0, "downloadThroughput": -1, "uploadThroughput": -1})

    def met(self) -> Tuple[str, str]:
        """What was typed, and what the server has meanwhile."""
        mine, theirs = "board 12 12 0\npatch 1 1 2 2\nend\n", "board 12 12 0\npatch 5 5 6 6\nend\n"
        self.begin("board 12 12 0\nend\n")
        self.online(False)
        self.tab.insert_text(mine)
        self.tab.wait("screenState.warnings.behind")
        self.page.state()
        self.have(theirs)
        self.online(True)
        self.tab.wait("(screenState.warnings.behind || '').includes('changed elsewhere')", 15)
        self.assertEqual((self.tab.text, self.foil()["text"]), (mine, theirs))
        return mine, theirs

    def answer(self, word: str) -> None:
        """Presses a button of the warning."""
        self.tab.js("[...document.querySelectorAll('#warning button')].find(one => one.textContent === arguments[0])"
                    ".click()", word)
        self.tab.idle()

    def test_it_is_asked_about(self) -> None:
        _, theirs = self.met()
        self.answer("Take theirs")
        self.assertEqual((self.tab.text, self.foil()["text"]), (theirs, theirs))
        self.assertEqual(self.tab.shown("drawn")["patches"], [[5, 5, 6, 6]])
        self.assertNotIn("behind", self.tab.shown("warnings"))

    def test_it_may_be_sent(self) -> None:
        mine, theirs = self.met()
        self.answer("Send mine")
        self.assertEqual((self.tab.text, self.foil()["text"]), (mine, mine))
        self.assertEqual(self.tab.shown("drawn")["patches"], [[1, 1, 2, 2]])
        self.tab.press_button("#undo").idle()
        self.assertEqual((self.tab.text, self.foil()["text"]), (theirs, theirs))


class Killed(browsing.Seen):
    def started(self, *words):
        """A screen of its own, by the command: its process and its address."""
        started = subprocess.Popen([sys.executable, str(program.ROOT / "foil-screen"), "--no-browser", "--orders",
                                    str(self.folder / "own"), *words], stdout=subprocess.PIPE, text=True,
                                   env={**os.environ, "FOIL_LIBRARY": str(given.FOUND)})
        self.addCleanup(started.stdout.close)
        self.addCleanup(started.wait)
        self.addCleanup(started.kill)
        return started, started.stdout.readline().strip()

    def gone(self, pid, seconds=10):
        """Whether a process has ended, or ends soon."""
        until = time.monotonic() + seconds
        while time.monotonic() < until:
            try:
                state = pathlib.Path("/proc/%d/stat" % pid).read_text().rpartition(")")[2].split()[0]
            except OSError:
                return True
            if state == "Z":
                return True
            time.sleep(0.05)
        return False

    def test_a_killed_server_loses_no_text(self):
        started, address = self.started()
        tab = browsing.Tab(address).type_text("board 12 12 0\npatch 5 5 6 6\nend\n")
        tab.hold("lay").click((1, 1)).click((9, 6))
        text, ink, view, library = tab.bare().text, tab.inked(), tab.shown("view"), tab.shown("library")["pid"]
        self.assertIn("track 1 1 1 9 6", text)
        started.send_signal(signal.SIGKILL)
        started.wait()
        tab.wait("screenState.warnings.gone")
        self.assertTrue(self.gone(library))
        self.assertEqual(tab.shown("view"), view)
        tab.click((2, 8)).click((3, 8))
        self.assertIn("not asked", tab.words("said"))
        tab.keys(ESCAPE)
        self.assertEqual((tab.text, tab.inked()), (text, ink))
        typed = text.replace("end\n", "patch 8 8 9 9\nend\n")
        tab.insert_text(typed)
        tab.wait("screenState.warnings.behind")
        self.assertEqual((tab.text, tab.shown("behind")), (typed, True))
        _, address = self.started()
        again = tab.other(address)
        self.assertEqual(again.text, text)
        self.assertIn("never saved", again.shown("warnings")["draft"])
        self.assertEqual([net["corners"] for net in again.shown("drawn")["tracks"]],
                         [[list(at) for at in expected.by_library("board 12 12 0\npatch 5 5 6 6\nend\n").find(
                             (1, 1), (9, 6)).corners]])
        self.assertEqual(tab.front().text, typed)

    def test_a_killed_library_loses_no_text(self):
        self.begin(given.SMALL)
        text, ink, generation = self.tab.bare().text, self.tab.inked(), self.tab.shown("library")["generation"]
        os.kill(self.library.process.pid, signal.SIGKILL)
        self.tab.wait("!screenState.library.standing || screenState.library.generation > %d" % generation, 25)
        self.assertEqual((self.tab.text, self.tab.inked()), (text, ink))
        self.tab.move((0, 0))
        self.tab.wait("screenState.library.standing && screenState.library.generation > %d" % generation)
        self.tab.move((8, 8))
        place, strip = next((place, strip) for place, strip in enumerate(expected.by_library(given.SMALL).strips)
                            if strip[0] <= 8 < strip[2] and strip[1] <= 8 < strip[3])
        self.assertEqual(self.tab.words("under"), "x 8, y 8: free\nstrip %d: %d %d %d %d" % (place, *strip))
        self.assertNotIn("library", self.tab.shown("warnings"))
        self.assertEqual((self.tab.text, self.tab.inked()), (text, ink))

    def test_a_library_that_is_not_there_is_said(self):
        self.begin(given.SMALL)
        text, ink = self.tab.bare().text, self.tab.inked()
        there, self.library.path = self.library.path, self.folder / "none.so"
        self.addCleanup(setattr, self.library, "path", there)
        os.kill(self.library.process.pid, signal.SIGKILL)
        self.tab.hold("lift").click((1, 4))
        self.assertIn("not asked", self.tab.words("said"))
        self.assertEqual((self.tab.text, self.tab.inked()), (text, ink))
        self.assertIn("library", self.tab.shown("warnings"))
        typed = given.SMALL.replace("end\n", "patch 8 8 9 9\nend\n")
        self.tab.insert_text(typed)
        self.tab.wait("screenState.warnings.behind || screenState.behind")
        self.assertEqual(self.tab.text, typed)
        self.library.path = there
        self.tab.idle()
        self.assertEqual((self.tab.text, self.foil()["text"]), (typed, typed))
        self.assertIn([8, 8, 9, 9], self.tab.shown("drawn")["patches"])
        self.assertFalse(self.tab.shown("behind"))
