"""Requests of any kind, sound or not: none is a mistake of the server, and none leaves it in disorder."""
from desk.tests import given as random_jobs
from screen import requests
from screen.tests import given

# what waits, and what is tested elsewhere
LEFT_OUT = {"watch", "save"}
SOUND = "board 22 22 0, patch 4 2 5 7  # key: on\ntrack 1 1 4 7 4\ntrack 2 1 15 9 13\ntrack 2 3 3 4 4\nend\n"


class AnyRequests(given.Served):
    def value(self, chance, key):
        """A value for a key, mostly of its kind."""
        odd = (None, float("nan"), -1, 70_000, 3.5, "x", "", [], [1], {}, True, 1e400, [[1]], "\ud800")
        if chance.random() < 0.03:
            return chance.choice(odd)
        point = lambda: [chance.randrange(-1, 22), chance.randrange(0, 22)]
        x, y = point()
        return {
            "foil": lambda: chance.choice((0, 0, 1, 7)), "from": point, "to": point, "point": point,
            "by": lambda: [chance.randint(-2, 2), chance.randint(-2, 2)],
            "x": lambda: chance.randrange(22), "y": lambda: chance.randrange(22), "net": lambda: chance.randint(0, 9),
            "lift": lambda: chance.randint(1, 9), "line": lambda: chance.randint(0, 14),
            "box": lambda: [x, y, x + chance.randint(0, 3), y + chance.randint(1, 3)],
            "corners": lambda: [[x, y], [x, (y + 3) % 22], [(x + 2) % 22, (y + 3) % 22]],
            "nets": lambda: [chance.randint(1, 9)], "text": lambda: random_jobs.random_text(chance),
            "name": lambda: chance.choice(("one", "two (2)", "a;b", "../x")), "keep": lambda: True,
            "wishes": lambda: [{"net": chance.randint(1, 9), "from": point(), "to": point()} for _ in range(3)],
            "width": lambda: 20, "height": lambda: 20, "half": lambda: chance.randint(0, 2), "gap": lambda: 1,
            "sheet": lambda: chance.choice((0.5, 2000.0)), "bend": lambda: 0.5, "dead": lambda: 3.0,
            "discard": lambda: True, "over": lambda: chance.choice(("", "0" * 64)), "open": lambda: True,
            "format": lambda: chance.choice(("hpgl", "gerber", "svg", "gcode", "csv", "pdf")),
            "mm": lambda: chance.choice(("0.25", "0.02", "1,5")),
            "patches": lambda: chance.choice(("", "filled", "outline"))}[key]()

    KEYS = ("foil", "from", "to", "point", "by", "x", "y", "net", "lift", "line", "box", "corners", "nets", "text",
            "name", "keep", "wishes", "width", "height", "half", "gap", "sheet", "bend", "dead", "discard", "over",
            "open", "format", "mm", "patches")

    def test_any_requests(self):
        words = sorted((set(requests.ASKING) | set(requests.CHANGING)) - LEFT_OUT)
        seen = set()
        for chance in given.chances(8):
            self.page.change("new", discard=True)
            for at in range(240):
                if at % 8 == 0:
                    self.page.change("text", foil=0, text=SOUND)
                word = chance.choice(words)
                if word in ("new", "open", "template", "text") and chance.random() < 0.8:
                    continue
                left = chance.sample(self.KEYS, chance.randint(0, 2)) + ["box"] * (
                    word in ("name", "opens") and chance.random() < 0.5) + ["nets"] * (chance.random() < 0.5)
                values = {key: self.value(chance, key) for key in self.KEYS if key not in left}
                if word == "copy_foil" and chance.random() < 0.8:
                    values["from"] = chance.randrange(8)
                if "box" in values and chance.random() < 0.5:
                    values["box"] = [4, 2, 5, 7]
                if word == "end" and chance.random() < 0.8:
                    self.page.change("text", foil=0, text=SOUND.replace("end\n", ""))
                    values["foil"] = 0
                told = self.page.change(word, **values)
                self.assertNotIn(told.get("fault", {}).get("kind"), ("mistake", "files"), (word, values, told))
                seen |= {(word, key) for key in ("answer", "refused", "fault", "unasked") if key in told}
                self.assertNotIn("unasked", told, (word, values))
            state = self.page.state()
            self.assertEqual(state["version"], self.page.version)
            self.library.stop()
            self.assertEqual(self.page.state(), state)
        self.assertEqual({word for word, key in seen if key == "answer"}, set(words) - {"open", "template"})

    def test_requests_that_are_none(self):
        for word in ("", "state/", "what", "../state", "__class__", "state?x"):
            told = self.page.ask(word)
            self.assertEqual((self.page.status, told["fault"]["kind"]) if word != "state?x" else (404, "absent"),
                             (404, "absent"))
