"""Orders and forms: a whole order form, names, ink, past orders and templates; layers, light and dark, and names for
all that can be pressed."""
import subprocess

from keyfoil import Ink

from desk import colours
from screen.tests import given
from screen.tests.browser import browsing, expected
from screen.tests.browser.browsing import ENTER, ESCAPE

TEXT = "board 20 14 0\npatch 8 4 12 9\nend\n"
DARK = {int(colour[1:], 16) * 256 + 255 for colour in colours.DARK}


class Orders(browsing.Seen):
    def press_word(self, word, within="#dialog"):
        """Presses the button that begins with a word."""
        self.tab.js("[...document.querySelectorAll(arguments[1] + ' button')].find(one => "
                    "one.textContent.startsWith(arguments[0])).click()", word, within)
        self.tab.idle()

    def test_an_order_form(self):
        self.begin(TEXT).keys("f")
        self.tab.wait("document.getElementById('wishes')")
        wishes = ((1, (1, 1), (18, 12)), (2, (9, 5), (1, 12)), (3, (18, 1), (1, 12)))
        self.tab.driver.execute_cdp_cmd("Input.insertText", {"text": "\n".join(
            "%d %d %d %d %d" % (net, *start, *end) for net, start, end in wishes)})
        self.press_word("Lay all")
        self.tab.wait("document.querySelectorAll('#answers tr').length === 3")
        foil = expected.by_library(TEXT)
        ways = foil.lay_list(wishes).nets
        said = self.tab.js("return [...document.querySelectorAll('#answers tr')].map(row => row.dataset.number)")
        self.assertEqual(said, [str(int(way.refusal)) for way in ways])
        self.assertIn("0", said)
        self.assertIn("8", said)
        self.assertEqual({net["net"]: net["corners"] for net in self.tab.shown("drawn")["tracks"]},
                         {wish[0]: [list(at) for at in way.corners] for wish, way in zip(wishes, ways) if way.accepted})
        self.press_word("Close")
        self.tab.with_ctrl("z")
        self.assertEqual(self.tab.text, TEXT)

    def test_a_plot_file(self) -> None:
        self.begin(TEXT.replace("end", "track 1 1 1 18 12\nend"))
        self.tab.js("window.kept = []; HTMLAnchorElement.prototype.click = function () { kept.push(this.download); }")
        self.tab.press_button("#plot")
        self.tab.wait("document.getElementById('plot-size')")
        self.press_word("Make the file")
        self.tab.wait("document.querySelector('#dialog .said').textContent.includes('how large a point is')")
        self.tab.js("document.getElementById('plot-size').value = '0.25';"
                    "document.getElementById('plot-format').value = 'gerber'")
        self.press_word("Make the file")
        self.tab.wait("document.getElementById('said').textContent === 'Plot file foil.gbr.'")
        self.assertEqual(self.tab.js("return kept"), ["foil.gbr"])

    def test_an_open_foil_is_plotted_after_a_yes(self) -> None:
        self.begin("# point: 0.25 mm\n" + TEXT.replace("end", "track 1 1 1 9 5\nend"))
        self.tab.js("window.kept = []; HTMLAnchorElement.prototype.click = function () { kept.push(this.download); }")
        self.tab.press_button("#plot")
        self.tab.wait("document.getElementById('plot-size')")
        self.press_word("Make the file")
        self.tab.wait("document.getElementById('dialog-head').textContent === 'Plotted as it is?'")
        self.assertEqual(self.tab.js("return kept"), [])
        self.press_word("Plot it as it is")
        self.tab.wait("kept.length")
        self.assertEqual(self.tab.js("return kept"), ["foil.hpgl"])

    def test_names_and_ink(self):
        text = TEXT.replace("end", "track 1 1 1 18 12\nend")
        self.begin(text)
        for selector, name in (("#nets [data-net='1'] input", "to pin 3"), ("#keys [data-box] input", "play")):
            self.tab.press_button(selector).keys(*name, ENTER)
        self.assertEqual((self.tab.shown("foil")["nets"][0]["name"], self.tab.shown("foil")["patches"][0]["name"]),
                         ("to pin 3", "play"))
        self.assertEqual(self.job(), bytes.fromhex(given.job_of(text)))
        for field, figure in (("sheet", "0.05"), ("bend", "0.5")):
            self.tab.press_button("#ink [name=%s]" % field).keys(*figure)
        self.tab.press_button("#ink button").idle()
        ohms = expected.by_library(text).ohms(1, Ink(0.05, 1.0, 0.5)).ohms
        self.assertAlmostEqual(float(self.tab.element("#nets [data-net='1']").get_attribute("data-ohms")), ohms)
        self.assertEqual(self.job(), bytes.fromhex(given.job_of(text)))

    def test_past_orders(self):
        self.begin(TEXT).with_ctrl("s")
        self.tab.type_name("first")
        self.tab.wait("document.getElementById('said').textContent.startsWith('Saved: ')")
        self.tab.idle().type_text(TEXT.replace("end", "patch 1 1 2 2\nend"))
        self.tab.with_ctrl("o")
        self.tab.wait("document.querySelector('[data-order=first]')")
        self.press_word("As template")
        self.tab.wait("document.getElementById('dialog-head').textContent === 'Changes are not saved'")
        self.press_word("Give them up")
        self.tab.wait("document.getElementById('order-name').textContent === 'new order'")
        self.assertEqual(self.tab.idle().text, TEXT)
        self.tab.keys(ESCAPE).with_ctrl("o")
        self.tab.wait("document.querySelector('[data-order=first]')")
        self.press_word("first")
        self.tab.wait("document.querySelector('#dialog-head').textContent === 'Changes are not saved'")
        # as the browser does that tells late of the list's close
        self.tab.js("document.getElementById('dialog').dispatchEvent(new Event('close'))")
        self.press_word("Give them up")
        self.tab.wait("document.getElementById('order-name').textContent === 'first'")
        self.assertEqual((self.tab.idle().text, self.tab.complaints()), (TEXT, []))

    def test_it_is_asked_before_what_another_wrote_is_lost(self):
        self.begin(TEXT).with_ctrl("s")
        self.tab.type_name("first")
        self.tab.wait("document.getElementById('said').textContent.startsWith('Saved: ')")
        path = self.folder / "orders" / "first" / "first.txt"
        mine, theirs = TEXT.replace("end", "patch 1 1 2 2\nend"), "board 5 5 0\nend\n"
        path.write_text(theirs)
        self.tab.idle().type_text(mine)
        for answer, left in (("Close", theirs), ("Write over it", mine)):
            self.tab.keys(ESCAPE).with_ctrl("s")
            self.tab.wait("document.getElementById('dialog').open && "
                          "document.getElementById('dialog-head').textContent === 'Written over?'")
            said = self.tab.js("return document.getElementById('dialog').textContent")
            self.assertIn("first.txt is another text, first in line 1: it has `board 5 5 0`", said)
            self.press_word(answer)
            self.tab.wait("!document.getElementById('dialog').open")
            self.tab.idle()
            self.assertEqual(path.read_text(), left)

    @given.with_job
    def test_what_is_saved_is_what_the_links_show(self):
        self.begin(given.sample("reader-keys")).press_button("#save-as")
        address = self.tab.element("#dialog [data-file=job]").get_attribute("href")
        job = self.page.send("GET", address.partition(self.server.host)[2])
        written = subprocess.run([given.JOB], input=job, stdout=subprocess.PIPE, check=True).stdout.decode("ascii")
        self.assertEqual(written, (given.SAMPLES / "reader-keys.out").read_text(encoding="ascii"))


class Looks(browsing.Seen):
    def test_layers_change_the_picture_and_nothing_else(self):
        self.begin(given.sample("refusals"))
        first, text, job = self.tab.image(), self.tab.text, self.job()
        for key in "1234":
            self.tab.keys(key)
            self.assertNotEqual(self.tab.image(), first, key)
            self.tab.keys(key)
            self.assertEqual(self.tab.image(), first, key)
        self.assertEqual((self.tab.text, self.job()), (text, job))

    def test_light_and_dark(self):
        self.begin(given.sample("less-ink")).bare()
        light = self.tab.inked()
        self.tab.keys("c")
        self.assertEqual(self.tab.inked(), {})
        dark = {(x, y) for y, row in enumerate(self.tab.picture()) for x, colour in enumerate(row) if colour in DARK}
        self.assertEqual(dark, set(light))
        self.assertTrue(dark)

    def test_all_that_can_be_pressed_has_a_name(self):
        self.begin(given.sample("less-ink"))
        bare = self.tab.js("""
            return [...document.querySelectorAll("button, input, textarea, select, [tabindex]")].filter(one =>
              one.id !== "refusals" && !(one.getAttribute("aria-label") || one.textContent.trim()
                || (one.labels && one.labels.length) || one.getAttribute("aria-labelledby")))
              .map(one => one.outerHTML.slice(0, 120))""")
        self.assertEqual(bare, [])
