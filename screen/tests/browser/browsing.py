"""The browser of the tests, one for all of them, and what a hand does on the page: points, presses, drags, keys. What
the page shows is read off its canvases, its words and `window.screenState` (screen/page/main.js says what that is)."""
import atexit
import importlib.util
import os
import shutil
import sys
import tempfile
import unittest

from screen.tests import given
from screen.tests.browser import expected

# where Debian has python3-selenium: any Python 3 can read it
DEBIAN = "/usr/lib/python3/dist-packages"
if importlib.util.find_spec("selenium") is None and os.path.isdir(os.path.join(DEBIAN, "selenium")):
    sys.path.append(DEBIAN)

CHROMIUM, DRIVER = shutil.which("chromium"), shutil.which("chromedriver")
MISSING = [package for package, there in (("chromium", CHROMIUM), ("chromium-driver", DRIVER),
                                          ("python3-selenium", importlib.util.find_spec("selenium"))) if not there]
NO_BROWSER = "no test in a browser: %s not found (apt-get install %s)" % (", ".join(MISSING), " ".join(MISSING))
with_browser = unittest.skipIf(MISSING, NO_BROWSER)

# keys, as WebDriver names them
ENTER, ESCAPE, LEFT, UP, RIGHT, DOWN, CONTROL = "\ue007", "\ue00c", "\ue012", "\ue013", "\ue014", "\ue015", "\ue009"

# the place in a point's square that is neither at its edge nor on the dash along a track's middle, where a point has at
# least so many pixels
BESIDE, LEAST = 0.18, 5.6

# the window's size in pixels, and the longest wait for the page in seconds
WIDE, HIGH, LONGEST = 1500, 1000, 30

IDLE = """
const [most, done] = [arguments[0], arguments[arguments.length - 1]], until = performance.now() + most;
const look = () => {
  const state = window.screenState;
  if (state && state.ready && state.idle) return done("");
  if (performance.now() > until) return done(state ? "the page is not done" : "there is no page");
  setTimeout(look, 2);
};
requestAnimationFrame(look);
"""

# the colour of a canvas at a place of each point: red, green, blue and how much of it there is, in one number
PICTURE = """
const [id, part] = arguments, state = window.screenState, { width, height } = state.foil, { scale } = state.view;
const canvas = document.getElementById(id), box = canvas.getBoundingClientRect(), ratio = canvas.width / box.width;
const { data } = canvas.getContext("2d").getImageData(0, 0, canvas.width, canvas.height), rows = [];
for (let y = 0; y < height; y++) {
  const row = [];
  for (let x = 0; x < width; x++) {
    const [px, py] = state.pixelOf(x, y).map(pixel => pixel + (part - 0.5) * scale);
    const at = 4 * (Math.floor((py - box.top) * ratio) * canvas.width + Math.floor((px - box.left) * ratio));
    row.push(data[at] * 16777216 + data[at + 1] * 65536 + data[at + 2] * 256 + data[at + 3]);
  }
  rows.push(row);
}
return rows;
"""

BARE = """
const pen = document.getElementById("drawing").getContext("2d");
pen.fillText = pen.strokeText = () => {};
for (const box of document.querySelectorAll("[data-layer]")) if (box.checked) box.click();
"""


class Browser:
    """A browser without a window that can be seen."""

    def __init__(self):
        from selenium import webdriver
        from selenium.webdriver.chrome.service import Service
        self.profile = tempfile.mkdtemp()
        options = webdriver.ChromeOptions()
        for word in ("--headless=new", "--no-sandbox", "--disable-gpu", "--disable-dev-shm-usage",
                     "--window-size=%d,%d" % (WIDE, HIGH), "--user-data-dir=" + self.profile):
            options.add_argument(word)
        options.binary_location = CHROMIUM
        options.set_capability("goog:loggingPrefs", {"browser": "ALL"})
        options.set_capability("unhandledPromptBehavior", "accept")
        self.driver = webdriver.Chrome(options=options, service=Service(DRIVER))
        self.driver.set_script_timeout(LONGEST + 10)
        self.first = self.driver.current_window_handle

    def end(self):
        """Ends it."""
        self.driver.quit()
        shutil.rmtree(self.profile, ignore_errors=True)

    def clear(self):
        """Closes all windows but the first, and leaves that empty."""
        for handle in self.driver.window_handles:
            if handle != self.first:
                self.driver.switch_to.window(handle)
                self.driver.close()
        self.driver.switch_to.window(self.first)
        self.driver.get("about:blank")
        self.driver.set_window_size(WIDE, HIGH)
        self.driver.get_log("browser")


KEPT = []


def browser():
    """The browser of the tests; it is started once."""
    if not KEPT:
        KEPT.append(Browser())
        atexit.register(KEPT[0].end)
    return KEPT[0]


class Tab:
    """A window of the browser on an address of the screen."""

    def __init__(self, address, of=None):
        self.driver = (of or browser()).driver
        self.handle = self.driver.current_window_handle
        self.driver.get(address)
        self.idle()

    def other(self, address):
        """The same address, or another one, in a window beside this."""
        self.driver.switch_to.new_window("window")
        return Tab(address)

    def front(self):
        """Goes on in this window."""
        self.driver.switch_to.window(self.handle)
        return self

    # what the page shows

    def js(self, script, *values):
        """What a script gives back."""
        return self.driver.execute_script(script, *values)

    def shown(self, name):
        """What the page says that it shows."""
        return self.js("return window.screenState[arguments[0]]", name)

    def words(self, name):
        """The words of an element, by its id."""
        return self.js("return document.getElementById(arguments[0]).textContent", name)

    @property
    def text(self):
        """The text as it is seen."""
        return self.js("return document.getElementById('text').value")

    def idle(self, seconds=LONGEST):
        """Waits until the page has asked and drawn all that it has to."""
        why = self.driver.execute_async_script(IDLE, 1000 * seconds)
        if why:
            raise AssertionError("%s after %g seconds: %s" % (why, seconds, self.driver.get_log("browser")))
        return self

    def wait(self, script, seconds=LONGEST):
        """Waits until a script gives back what is true: that."""
        from selenium.common.exceptions import TimeoutException
        from selenium.webdriver.support.ui import WebDriverWait
        try:
            return WebDriverWait(self.driver, seconds, 0.05).until(lambda _: self.js("return " + script))
        except TimeoutException:
            raise AssertionError("not within %g seconds: %s" % (seconds, script)) from None

    def picture(self, canvas="drawing", part=BESIDE):
        """The colours of a canvas, by rows of points; `part` is the place within a point's square."""
        return self.js(PICTURE, canvas, part)

    def inked(self):
        """The points that have the colour of a track, with that colour; labels may be in the way."""
        return {(x, y): colour for y, row in enumerate(self.picture()) for x, colour in enumerate(row)
                if colour in expected.INKS}

    def image(self):
        """The whole drawing, as the bytes of an image in letters."""
        return self.js("return document.getElementById('drawing').toDataURL()")

    def bare(self):
        """Leaves labels and layers out of the drawing, so that the colour of each point can be seen."""
        self.js(BARE)
        return self.idle()

    # what a hand does

    def element(self, selector):
        """An element of the page."""
        from selenium.webdriver.common.by import By
        return self.driver.find_element(By.CSS_SELECTOR, selector)

    def press_button(self, selector):
        """A click on a button."""
        self.element(selector).click()
        return self

    def hold(self, tool):
        """Takes a tool into the hand."""
        self.press_button("button[data-tool=%s]" % tool)
        return self.idle()

    def insert_text(self, text):
        """Types another text in place of the one that is there; what comes of it is not waited for."""
        self.js("const area = document.getElementById('text'); area.focus(); area.select()")
        self.driver.execute_cdp_cmd("Input.insertText", {"text": text})

    def type_text(self, text):
        """Types another text in place of the one that is there."""
        self.insert_text(text)
        return self.idle()

    def type_name(self, name):
        """Types a name into the dialog that saves an order, and Enter."""
        self.wait("document.getElementById('save-name')")
        self.js("document.getElementById('save-name').select()")
        self.keys(*name, ENTER)

    def hand(self):
        """A hand that waits nowhere: what it does is done by `perform`."""
        from selenium.webdriver.common.actions.action_builder import ActionBuilder
        return ActionBuilder(self.driver, duration=0)

    def pixel(self, point):
        """The pixel of the window that is in the middle of a point."""
        return [round(pixel) for pixel in self.js("return window.screenState.pixelOf(...arguments[0])", list(point))]

    def move(self, point):
        """The pointer goes to a point."""
        hand = self.hand()
        hand.pointer_action.move_to_location(*self.pixel(point))
        hand.perform()
        return self.idle()

    def click(self, point):
        """A click on a point."""
        hand = self.hand()
        hand.pointer_action.move_to_location(*self.pixel(point)).pointer_down().pointer_up()
        hand.perform()
        return self.idle()

    def drag(self, start, end):
        """A drag from a point to another."""
        hand, (first, last) = self.hand(), (self.pixel(start), self.pixel(end))
        hand.pointer_action.move_to_location(*first).pointer_down()
        hand.pointer_action.move_to_location(*((a + b) // 2 for a, b in zip(first, last)))
        hand.pointer_action.move_to_location(*last).pointer_up()
        hand.perform()
        return self.idle()

    def turn(self, point, by):
        """The wheel, turned over a point."""
        x, y = self.pixel(point)
        hand = self.hand()
        hand.wheel_action.scroll(x, y, 0, by)
        hand.perform()
        return self.idle()

    def keys(self, *keys):
        """Keys, one after the other."""
        hand = self.hand()
        for key in keys:
            hand.key_action.key_down(key).key_up(key)
        hand.perform()
        return self.idle()

    def with_ctrl(self, key):
        """A key with Ctrl held."""
        hand = self.hand()
        hand.key_action.key_down(CONTROL).key_down(key).key_up(key).key_up(CONTROL)
        hand.perform()
        return self.idle()

    def complaints(self):
        """What the browser complains of: mistakes of scripts, and what the page's policy has barred. That an answer has
        a status above 400 is none."""
        return [line["message"] for line in self.driver.get_log("browser")
                if line["level"] == "SEVERE" and line["source"] != "network"]


@with_browser
class Seen(given.Served):
    """Tests of a page that is seen in the browser. The tests' own page stands in the tab's place: it has its order."""

    def setUp(self):
        super().setUp()
        self.page.ask("leave")
        self.browser = browser()
        self.addCleanup(self.browser.clear)
        # what a page has remembered of another test, which had the same address
        self.browser.driver.execute_cdp_cmd("Storage.clearDataForOrigin", {
            "origin": "http://" + self.server.host, "storageTypes": "local_storage"})
        self.tab = Tab(self.server.address)
        self.page.screen = self.tab.shown("screen")

    def begin(self, text):
        """Has a text on foil 0 before the page is seen."""
        self.page.state()
        self.have(text)
        self.tab.js("localStorage.clear()")
        self.tab.driver.refresh()
        self.tab.idle()
        return self.tab

    def job(self, k=0):
        """The bytes of a foil's job, as a save would write them."""
        return self.page.get("file/job?foil=%d" % k)

    def assert_drawn(self, foil):
        """The drawing has the ink of these nets, each in a colour of its own, and no other."""
        self.assertGreaterEqual(self.tab.shown("view")["scale"], LEAST)
        self.assertEqual([self.tab.shown("foil")[name] for name in ("width", "height")], [foil.width, foil.height])
        inked = self.tab.inked()
        for net in foil.legs:
            ink = foil.ink(net)
            self.assertEqual(ink - inked.keys(), set(), "net %d is not drawn here" % net)
            self.assertEqual(len({inked.pop(point) for point in ink}), 1, "net %d has several colours" % net)
        self.assertEqual(inked, {}, "no net is here")
