"""Two tabs are two: each has its order, its steps back and its lock, and what both do to one order is asked about."""
import threading

from screen import session, tabs
from screen.tests import given

OTHER = "board 5 5 0\nend\n"


class TwoTabs(given.Served):
    def setUp(self) -> None:
        super().setUp()
        self.second = self.tab("two")

    def text(self, page: given.Page) -> str:
        """The text of foil 0 in a tab."""
        return page.state()["foil"]["text"]

    def test_what_one_does_the_other_does_not_see(self) -> None:
        self.have(given.SMALL)
        self.page.change("lift", foil=0, net=1)
        lifted, version = self.text(self.page), self.second.version
        state = self.second.state()
        self.assertEqual((state["foil"]["text"], state["undo"], state["version"]), ("", 0, version))
        self.assertIn("answer", self.second.change("text", foil=0, text=OTHER))
        self.second.change("undo", foil=0)
        self.second.change("undo", foil=0)
        self.assertEqual((self.text(self.second), self.text(self.page)), ("", lifted))
        self.page.change("undo", foil=0)
        self.assertEqual((self.text(self.second), self.text(self.page)), ("", given.SMALL))
        self.assertEqual(self.second.state()["redo"], 1)
        self.assertEqual((self.page.state()["undo"], self.page.state()["redo"]), (1, 1))

    def test_each_has_its_own_order_open(self) -> None:
        for page, name, text in ((self.page, "keys", given.SMALL), (self.second, "others", OTHER)):
            page.change("text", foil=0, text=text)
            self.assertIn("answer", page.change("save", name=name))
        self.assertEqual([page.state()["order"]["name"] for page in (self.page, self.second)], ["keys", "others"])
        self.second.change("new")
        self.assertEqual((self.page.state()["order"]["name"], self.text(self.page)), ("keys", given.SMALL))

    def test_versions_are_never_the_same(self) -> None:
        """A change that was meant for the order of one tab is none of the other's."""
        for page in (self.page, self.second):
            page.change("text", foil=0, text=given.SMALL)
        told = self.second.ask("lift", foil=0, net=1, version=self.page.version)
        self.assertEqual((self.second.status, told["fault"]["kind"]), (409, "stale"))

    def test_the_same_order_in_both(self) -> None:
        self.have(given.SMALL)
        self.page.change("save", name="keys")
        opened = self.second.change("open", name="keys")["answer"]["state"]
        self.assertEqual(opened["foil"]["text"], given.SMALL)
        self.assertIn("another screen has this order open", opened["order"]["other"])
        self.second.change("text", foil=0, text=OTHER)
        asked = self.second.change("save")["fault"]
        self.assertEqual(asked["kind"], "taken")
        self.assertEqual((self.text(self.page), self.page.state()["order"]["unsaved"]), (given.SMALL, False))
        self.assertIn("answer", self.second.change("save", over=asked["digest"]))
        self.page.change("lift", foil=0, net=1)
        told = self.page.change("save")
        self.assertEqual(told["fault"]["kind"], "taken")
        self.assertIn("changed since", told["fault"]["why"])
        self.assertEqual((self.folder / "orders" / "keys" / "keys.txt").read_text(), OTHER)

    def test_they_are_counted(self) -> None:
        self.assertEqual(self.page.ask("state")["screens"], 2)
        self.second.ask("leave")
        self.assertEqual(self.page.ask("state")["screens"], 1)
        self.second.state()
        self.assertEqual(self.page.ask("state")["screens"], 2)
        self.server.tabs.seen["two"] -= tabs.SILENT + 1
        self.assertEqual(self.page.ask("state")["screens"], 1)

    def test_a_tab_that_is_loaded_anew_keeps_its_order(self) -> None:
        self.second.change("text", foil=0, text=OTHER)
        before = self.second.state()
        self.page.ask("leave")
        self.second.ask("leave")
        self.assertEqual(self.second.state(), before)

    def test_the_next_tab_takes_over_what_a_closed_one_left(self) -> None:
        self.second.change("text", foil=0, text=OTHER)
        before = self.second.state()
        self.second.ask("leave")
        third = self.tab("three")
        self.assertEqual(third.state(), before)
        self.assertEqual(third.change("undo", foil=0)["answer"]["state"]["foil"]["text"], "")
        self.assertEqual(self.text(self.tab("four")), "")

    def test_an_order_that_a_closed_tab_had_open(self) -> None:
        self.have(given.SMALL)
        self.page.change("save", name="keys")
        self.page.change("lift", foil=0, net=1)
        changed = self.text(self.page)
        self.assertEqual([row["open"] for row in self.second.ask("orders")["answer"]["orders"]], [True])
        self.page.ask("leave")
        self.assertEqual([row["open"] for row in self.second.ask("orders")["answer"]["orders"]], [False])
        opened = self.second.change("open", name="keys")["answer"]["state"]
        self.assertEqual((opened["order"]["other"], opened["foil"]["text"]), ("", changed))
        self.assertIn("never saved", opened["order"]["draft"])

    def test_a_change_that_the_tab_has_not_seen(self) -> None:
        """The page of a tab is told of a change that was made in its place, and its own is refused meanwhile."""
        self.have(given.SMALL)
        again, old, seen = given.Page(self.server, "one"), self.page.version, []
        self.addCleanup(again.close)
        watching = threading.Thread(target=lambda: seen.append(again.ask(
            "watch", version=old, generation=self.library.generation, screens=2)))
        watching.start()
        self.page.change("lift", foil=0, net=1)
        watching.join(session.WATCH / 2)
        self.assertEqual([told["version"] for told in seen], [old + 1])
        before = self.page.state()
        for version in ({"version": old}, {}):
            told = again.ask("lift", foil=0, net=1, **version)
            self.assertEqual((again.status, told["fault"]["kind"]), (409, "stale"))
        self.assertEqual(self.page.state(), before)

    def test_papers_are_of_their_tab(self) -> None:
        self.have(given.SMALL)
        self.second.change("text", foil=0, text=OTHER)
        for name, text in (("one", given.SMALL), ("two", OTHER)):
            self.assertEqual(self.page.get(f"file/text?foil=0&screen={name}").decode(), text)
        self.page.get("file/text?foil=0&screen=none")
        self.assertEqual(self.page.status, 404)

    def test_so_many_tabs_at_most(self) -> None:
        for at in range(len(self.server.tabs.here), tabs.MOST):
            self.page.post("free_net", {"screen": f"more {at}"})
        self.assertEqual(self.page.post("state", {"screen": "one more"})["fault"]["kind"], "asked")
        self.assertIn("answer", self.page.ask("state"))
