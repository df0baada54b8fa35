"""Words of the page where they are needed: a text without its end, undo in a field, the notice of a draft, a way drawn
by hand that is refused, an order form."""
from screen.tests import given
from screen.tests.browser import browsing
from screen.tests.browser.browsing import CONTROL, ESCAPE

OPEN = "board 20 14 0\npatch 8 4 12 9\ntrack 1 1 1 18 12\n"

# whether two elements of the page have a pixel in common
MEET = """
const [a, b] = [...arguments].map(id => document.getElementById(id).getBoundingClientRect());
return a.width > 0 && b.width > 0 && a.left < b.right && b.left < a.right && a.top < b.bottom && b.top < a.bottom;
"""


class Unfinished(browsing.Seen):
    def test_a_text_without_end(self) -> None:
        self.begin(OPEN)
        said = self.tab.words("refusals")
        for words in ("(14)", "its last line is not `end`", "what to do:"):
            self.assertIn(words, said)
        self.assertNotIn("nothing", said)
        self.assertEqual(self.tab.words("figures"), "20 by 14 points, reach 0; 3 entries, 125 more")
        self.tab.hold("lay").click((2, 5))
        self.assertIn("its last line is not `end`", self.tab.words("said"))
        # the list moves up when the pointer leaves the foil: the button is pressed where it then is
        self.tab.press_button("#refusals-head").press_button("#refusals .of-fault > button:not(.go)").idle()
        self.assertEqual(self.tab.words("said"), "A last line `end` was added.")
        self.assertEqual((self.tab.text, self.tab.shown("foil")["fault"]), (OPEN + "end\n", None))
        self.assertIn("free, in", self.tab.words("figures"))
        self.tab.press_button("#undo").idle()
        self.assertEqual(self.tab.text, OPEN)

    def test_a_text_that_is_too_long(self) -> None:
        self.begin("board 9 9 0\n" + "lift 1\n" * 19_998 + "end\n")
        said = self.tab.words("refusals")
        for words in ("(18)", "bytes", "what to do:", "take steps out"):
            self.assertIn(words, said)
        self.assertNotIn("Add end", said)
        self.assertNotIn("; ;", self.tab.words("figures"))


class Fields(browsing.Seen):
    def undo(self, *keys: str) -> None:
        """Ctrl and these keys."""
        hand = self.tab.hand()
        hand.key_action.key_down(CONTROL)
        for key in keys:
            hand.key_action.key_down(key)
        for key in reversed(keys):
            hand.key_action.key_up(key)
        hand.key_action.key_up(CONTROL)
        hand.perform()
        self.tab.idle()

    def test_undo_in_a_field_is_the_fields(self) -> None:
        self.begin(OPEN + "end\n").hold("lay").click((1, 13)).click((3, 13))
        text, version = self.tab.text, self.tab.shown("version")
        self.assertIn("track 2 1 13 3 13", text)
        for field in ("#keys input", "#nets [data-net='1'] input", "#ink [name=sheet]", "#point", "#net"):
            with self.subTest(field):
                typed = "12" if field in ("#net", "#point", "#ink [name=sheet]") else "on"
                self.tab.press_button(field).keys(*typed)
                value = "return document.querySelector(arguments[0]).value"
                self.assertEqual(self.tab.js(value, field), typed)
                self.undo("z")
                self.assertNotEqual(self.tab.js(value, field), typed)
                self.undo("\ue008", "z")
                self.assertEqual(self.tab.js(value, field), typed)
                self.undo("z")
                self.undo("y")
                self.assertEqual(self.tab.js(value, field), typed)
                self.assertEqual((self.tab.text, self.tab.shown("version")), (text, version))
                self.tab.js("document.querySelector(arguments[0]).value = ''", field)
        self.tab.keys(ESCAPE).with_ctrl("z")
        self.assertNotIn("track 2", self.tab.text)

    def test_undo_in_the_text_is_that_of_the_text(self) -> None:
        self.begin(OPEN + "end\n").hold("lay").click((1, 13)).click((3, 13))
        text = self.tab.text
        self.tab.js("const area = document.getElementById('text'); area.focus(); area.setSelectionRange(0, 0)")
        self.tab.keys("#", "\n")
        self.assertEqual(self.tab.text, "#\n" + text)
        self.undo("z")
        self.assertTrue(self.tab.text.endswith(text))
        self.undo("z")
        self.undo("z")
        self.assertEqual((self.tab.text, self.foil()["text"]), (text, text))


class Notices(browsing.Seen):
    NOTICE = "(screenState.warnings.draft || '').includes('never saved')"

    def left(self) -> None:
        """A draft is left of the tab's order, and the page shows it."""
        self.begin(OPEN + "end\n")
        self.page.state()
        self.page.change("save", name="keys")
        self.have(given.SMALL)
        session = self.server.session
        session.shelf.release()
        session.order = session.shelf.open("keys")
        session.order.version += self.page.version
        self.tab.driver.refresh()
        self.tab.idle().wait(self.NOTICE)

    def test_it_covers_nothing_and_is_put_away(self) -> None:
        self.left()
        for place in ("said", "line-said", "figures", "library", "text", "stage"):
            self.assertFalse(self.tab.js(MEET, "warning", place), place)
        self.tab.press_button("#warning button").idle()
        self.assertFalse(self.tab.js("return " + self.NOTICE))
        self.tab.press_button("[data-foil='1']").idle()
        self.assertFalse(self.tab.js("return " + self.NOTICE))

    def test_it_goes_with_the_next_change(self) -> None:
        self.left()
        self.tab.hold("lift").click((1, 4))
        self.assertFalse(self.tab.js("return " + self.NOTICE))


class Helps(browsing.Seen):
    def test_a_way_that_is_refused_says_where(self) -> None:
        self.begin(OPEN + "end\n").hold("way").click((2, 6)).move((15, 6))
        self.assertIn("its straight from 2,6 to 15,6 is not free at 8,6, which is on the patch 8 4 12 9",
                      self.tab.words("preview"))
        self.tab.click((15, 6)).click((15, 6))
        self.assertIn("is not free at 8,6", self.tab.words("said"))

    def test_an_order_form_has_the_nearest_free_point(self) -> None:
        self.begin("board 9 9 0, patch 4 2 5 7\nend\n").keys("f")
        self.tab.wait("document.getElementById('wishes')")
        self.tab.driver.execute_cdp_cmd("Input.insertText", {"text": "1 1 4 7 4\n2 1 5 7 3"})
        self.tab.press_button("#dialog .primary")
        self.tab.wait("document.querySelectorAll('#answers tr').length === 2")
        self.assertIn("its end 7,3 is on net 1; the nearest free point is 6,3", self.tab.words("answers"))
