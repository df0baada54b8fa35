"""Changes by clicks: what was previewed is what is laid, a refused step changes nothing, and undos give back the
bytes."""
from desk import textform
from screen.tests import given


class Clicks(given.Served):
    def setUp(self):
        super().setUp()
        self.have("board 9 9 0, patch 4 2 5 7\nend\n")

    def done(self, word, **values):
        told = self.page.change(word, **values)
        self.assertIn("answer", told, told)
        return told["answer"]

    def refused(self, number, word, **values):
        """Refuses a change: text, picture and version are as they were."""
        before = self.page.state()
        told = self.page.change(word, **values)
        self.assertEqual(told.get("refused", {}).get("number"), number, told)
        self.assertTrue(told["refused"]["says"])
        self.assertEqual(self.page.state(), before)
        return told["refused"]

    def test_two_clicks_lay_what_was_found(self):
        found = self.page.ask("find", foil=0, net=1, **{"from": [1, 4], "to": [7, 4]})["answer"]
        self.assertEqual((found["corners"], found["bends"], found["length"], found["lay"]),
                         ([[1, 4], [1, 1], [7, 1], [7, 4]], 2, 12, None))
        laid = self.done("lay", foil=0, net=1, name="to pin 3", **{"from": [1, 4], "to": [7, 4]})
        self.assertEqual(laid["way"], {"corners": found["corners"], "bends": 2})
        net, = laid["state"]["foil"]["nets"]
        self.assertEqual((net["corners"], net["bends"], net["length"], net["lines"], net["name"]),
                         (found["corners"], 2, 12, [2], "to pin 3"))
        self.assertEqual(laid["state"]["foil"]["text"],
                         "board 9 9 0, patch 4 2 5 7\ntrack 1 1 4 7 4  # net: to pin 3\nend\n")

    def test_refused_clicks_change_nothing(self):
        self.done("lay", foil=0, net=1, **{"from": [1, 4], "to": [7, 4]})
        said = self.refused(8, "lay", foil=0, net=2, **{"from": [1, 5], "to": [7, 3]})
        self.assertIn("nearest free point", said["here"][0])
        self.refused(5, "lay", foil=0, net=1, **{"from": [0, 0], "to": [8, 0]})
        self.refused(7, "lay", foil=0, net=2, **{"from": [9, 0], "to": [8, 0]})
        self.refused(4, "lay", foil=0, net=0, **{"from": [0, 0], "to": [8, 0]})
        self.refused(6, "lift", foil=0, net=2)
        self.refused(3, "draw", foil=0, box=[3, 3, 3, 4])
        self.assertIn("net 1", self.refused(21, "draw", foil=0, box=[0, 3, 2, 6])["here"][0])
        self.refused(19, "book", foil=0, net=2, corners=[[0, 0], [1, 1]])
        self.refused(6, "join", foil=0, net=2, point=[0, 0])
        self.refused(12, "list", foil=0, wishes=[{"net": 1, "from": [0, 0], "to": [1, 0]}] * 41)
        self.refused(1, "begin", foil=0, width=0, height=4, half=0, gap=0)
        self.refused(20, "begin", foil=0, width=9, height=4, half=8, gap=0)

    def test_a_number_that_no_call_takes(self):
        for values in ({"net": 70000, "from": [0, 0], "to": [1, 1]}, {"net": 1, "from": [-1, 0], "to": [1, 1]},
                       {"net": 1, "from": [0.5, 0], "to": [1, 1]}, {"net": 1, "from": [0], "to": [1, 1]}, {"net": 1}):
            self.assertEqual(self.page.change("lay", foil=0, **values)["fault"]["kind"], "asked")

    def test_a_way_drawn_by_hand(self):
        corners = [[0, 0], [0, 8], [8, 8]]
        self.assertEqual(self.page.ask("try_book", foil=0, net=3, corners=corners)["answer"]["length"], 16)
        made = self.done("book", foil=0, net=3, corners=corners, name="by hand")
        net, = made["state"]["foil"]["nets"]
        self.assertEqual((net["legs"], net["length"], net["lines"], net["name"]),
                         ([[0, 0, 1, 9], [0, 8, 9, 9]], 16, [2, 3], "by hand"))
        self.assertEqual(made["state"]["foil"]["text"].splitlines()[1:3],
                         ["leg 3 0 0 1 9  # net: by hand", "leg 3 0 8 9 9"])

    def test_a_third_pin(self):
        self.done("lay", foil=0, net=1, **{"from": [0, 0], "to": [8, 0]})
        tried = self.page.ask("try_join", foil=0, net=1, point=[2, 5])["answer"]
        made = self.done("join", foil=0, net=1, point=[2, 5])
        self.assertEqual(made["way"]["corners"], tried["corners"])
        net, = made["state"]["foil"]["nets"]
        self.assertEqual((tried["corners"], tried["length"]), ([[2, 5], [2, 0]], 5))
        self.assertEqual((net["length"], tried["net_length"]), (13, 13))
        self.assertEqual(made["state"]["foil"]["text"].splitlines()[2].split()[:2], ["leg", "1"])
        self.assertEqual(net["lines"], [2, 3])

    def test_a_join_to_a_point_on_the_net_adds_nothing_that_is_not_there(self):
        self.done("lay", foil=0, net=1, **{"from": [0, 0], "to": [8, 0]})
        told = self.page.change("join", foil=0, net=1, point=[4, 0])
        self.assertTrue("answer" in told or "refused" in told, told)

    def test_an_order_form(self):
        wishes = [{"net": 1, "from": [0, 0], "to": [8, 0], "name": "top"}, {"net": 2, "from": [0, 0], "to": [8, 1]},
                  {"net": 3, "from": [0, 8], "to": [8, 8]}]
        made = self.done("list", foil=0, wishes=wishes)
        self.assertEqual([way["number"] for way in made["ways"]], [0, 8, 0])
        self.assertEqual([net["net"] for net in made["state"]["foil"]["nets"]], [1, 3])
        self.assertEqual(made["state"]["foil"]["open"], [])
        self.done("undo", foil=0)
        kept = self.done("list", foil=0, wishes=wishes, keep=True)["state"]["foil"]
        self.assertEqual([of["net"] for of in kept["open"]], [2])
        self.assertEqual([net["net"] for net in kept["nets"]], [1, 3])

    def test_what_lift_opens_a_way(self):
        self.have("board 9 3 0\ntrack 1 4 0 4 2\ntrack 2 8 0 8 2\nend\n")
        said = self.refused(9, "lay", foil=0, net=3, **{"from": [0, 1], "to": [7, 1]})
        opens = self.page.ask("opens", foil=0, net=3, **{"from": [0, 1], "to": [7, 1]})["answer"]
        self.assertEqual(opens, {"lifts": [{"net": 1, "bends": 0, "length": 7}], "tried": 2})
        self.assertEqual(said["number"], 9)
        self.refused(21, "draw", foil=0, box=[4, 1, 5, 2])
        lets = self.page.ask("opens", foil=0, box=[4, 1, 5, 2])["answer"]["lifts"]
        self.assertEqual([row["net"] for row in lets], [1])
        made = self.done("relay", foil=0, lift=1, net=3, **{"from": [0, 1], "to": [7, 1]})
        self.assertEqual(made["again"]["number"], 9)
        self.assertEqual([of["net"] for of in made["state"]["foil"]["open"]], [1])

    def test_names(self):
        self.done("lay", foil=0, net=1, name="one", **{"from": [0, 0], "to": [8, 0]})
        made = self.done("name", foil=0, net=1, name="a; b\nc")["state"]["foil"]
        self.assertEqual(made["nets"][0]["name"], "a, b c")
        made = self.done("name", foil=0, box=[4, 2, 5, 7], name="Page on")["state"]["foil"]
        self.assertEqual(made["patches"][0]["name"], "Page on")
        self.assertEqual(made["text"].splitlines()[0], "board 9 9 0, patch 4 2 5 7  # key: Page on")
        made = self.done("name", foil=0, net=1, name="")["state"]["foil"]
        self.assertEqual((made["nets"][0]["name"], made["text"].splitlines()[1]), ("", "track 1 0 0 8 0"))

    def test_ink(self):
        self.done("lay", foil=0, net=1, **{"from": [0, 0], "to": [8, 0]})
        made = self.done("ink", foil=0, sheet=0.5, bend=0.5, width=None, dead=4)["state"]["foil"]
        self.assertEqual((made["ink"]["width"], made["ink"]["given"], made["nets"][0]["ohms"]), (1.0, False, 4.0))
        self.assertFalse(made["nets"][0]["dead"])
        made = self.done("ink", foil=0, sheet=0.5, bend=0.5, width=1, dead=3.5)["state"]["foil"]
        self.assertTrue(made["nets"][0]["dead"])
        self.assertIn("# ink: sheet 0.5 bend 0.5 width 1 dead 3.5\n", made["text"])
        found = self.page.ask("find", foil=0, **{"from": [0, 8], "to": [8, 8]})["answer"]
        self.assertEqual((found["ohms"], found["dead"]), (4.0, True))
        made = self.done("ink", foil=0, sheet=2000, bend=0, width=None, dead=None)["state"]["foil"]
        self.assertEqual((made["ink"]["refused"]["number"], made["nets"][0]["ohms"]), (22, None))
        made = self.done("ink", foil=0, sheet=None, bend=None, width=None, dead=None)["state"]["foil"]
        self.assertNotIn("ink", made["text"])

    def test_the_width_of_the_ink_is_the_pens(self):
        made = self.have("# ink: sheet 1 bend 0\nboard 40 40 pen 2 1\ntrack 1 5 5 30 5\nend\n")
        self.assertEqual(made["ink"]["width"], 5.0)
        self.assertEqual(made["nets"][0]["ohms"], 5.0)

    def test_the_nearest_free_point(self):
        self.assertEqual(self.page.ask("nearest", foil=0, x=4, y=4)["answer"], {"point": [3, 4]})
        self.assertEqual(self.page.ask("nearest", foil=0, x=0, y=0)["answer"], {"point": [0, 0]})
        self.have("board 2 2 0, patch 0 0 2 2\nend\n")
        self.assertEqual(self.page.ask("nearest", foil=0, x=0, y=0)["answer"], {"point": None})

    def test_every_point_has_the_strip_of_the_list(self):
        for name in ("less-ink", "refusals", "document-01"):
            foil = self.have(given.sample(name))
            flat = foil["strips"]
            strips = [flat[at:at + 4] for at in range(0, len(flat), 4)]
            for x in range(foil["board"]["width"] + 1):
                for y in range(foil["board"]["height"] + 1):
                    told = self.page.ask("look_up", foil=0, x=x, y=y)
                    inside = [(at, box) for at, box in enumerate(strips)
                              if box[0] <= x < box[2] and box[1] <= y < box[3]]
                    if inside:
                        self.assertEqual(told["answer"], {"place": inside[0][0], "strip": inside[0][1]})
                    else:
                        off = x >= foil["board"]["width"] or y >= foil["board"]["height"]
                        self.assertEqual(told["refused"]["number"], 7 if off else 8)
                        self.assertTrue(off or told["refused"]["here"] and (
                            told["refused"]["blocks"] or told["refused"]["edge"]))

    def test_a_text_that_cannot_be_read_is_kept(self):
        made = self.have("board 9 9 0\ntrak 1\nend\n")
        self.assertEqual([fault["line"] for fault in made["unread"]], [2])
        self.assertEqual((made["begun"], made["text"]), (False, "board 9 9 0\ntrak 1\nend\n"))
        self.assertEqual(self.page.change("lift", foil=0, net=1)["fault"]["kind"], "unread")
        made = self.done("undo", foil=0)["state"]["foil"]
        self.assertTrue(made["begun"])

    def test_a_text_that_leaves_no_foil(self):
        for text, number in (("board 9 9 16\nend\n", 2), ("board 9 9 0\n", 14), ("patch 0 0 1 1\nend\n", 16)):
            made = self.have(text)
            self.assertEqual(made["fault"]["number"], number)
            self.assertEqual(self.page.change("draw", foil=0, box=[0, 0, 1, 1])["fault"]["kind"], "unread")
        self.assertTrue(self.have("board 9 9 0\nend\n")["begun"])

    def test_a_foil_is_begun_or_given_another_board(self):
        board = {"width": 12, "height": 10, "half": 1, "gap": 2}
        for text in ("end\n", "bytes 00\n", "patch 0 0 1 1\nend\n", "what\n"):
            self.have(text)
            self.assertEqual(self.page.change("begin", foil=0, **board)["fault"]["kind"], "unread")
        self.have("# so\nboard 9 9 0, patch 4 2 5 7  # key: on\nend\n")
        made = self.done("begin", foil=0, **board)["state"]["foil"]
        self.assertEqual(made["text"], "# so\nboard 12 10 pen 1 2, patch 4 2 5 7  # key: on\nend\n")
        self.assertEqual(made["board"], board)
        self.done("ink", foil=0, sheet=0.5, bend=0.5, width=None, dead=None)
        made = self.done("begin", foil=1, **board)["state"]["foil"]
        self.assertEqual(made["text"], "# ink: sheet 0.5 bend 0.5\nboard 12 10 pen 1 2\nend\n")

    def test_a_refused_line_stands_in_the_lists(self):
        made = self.have(given.SMALL)
        self.assertEqual([(of["net"], of["number"], of["line"]) for of in made["open"]], [(2, 8, 3)])
        self.assertEqual([row["refused"] for row in made["rows"]], [False, False, False, True, False])
        self.assertEqual([(of["matter"], of["at"]) for of in made["checks"]], [("open", [1, 5])])
        made = self.done("drop", foil=0, line=3)["state"]["foil"]
        self.assertEqual((made["open"], made["checks"]), ([], []))


class Undo(given.Served):
    def random_change(self, chance, size=30):
        """A change, accepted or refused."""
        point = lambda: [chance.randrange(size), chance.randrange(size)]
        net, foil = chance.randint(1, 9), chance.choice((0, 0, 0, 3))
        x, y = point()
        word, values = chance.choice((
            ("lay", {"net": net, "from": point(), "to": point()}),
            ("lay", {"net": net, "from": point(), "to": point(), "name": "n%d" % net}),
            ("draw", {"box": [x, y, x + chance.randint(0, 4), y + chance.randint(1, 4)]}),
            ("lift", {"net": net}),
            ("join", {"net": net, "point": point()}),
            ("book", {"net": net, "corners": [[x, y], [x, chance.randrange(size)]]}),
            ("list", {"wishes": [{"net": chance.randint(1, 9), "from": point(), "to": point()} for _ in range(3)]}),
            ("name", {"net": net, "name": "m%d" % chance.randrange(9)}),
            ("ink", {"sheet": 0.5, "bend": chance.random(), "width": None, "dead": None}),
        ))
        return self.page.change(word, foil=foil, **values)

    def held(self):
        """The jobs of the two foils, and all that is shown of them."""
        foils = [self.page.state(k)["foil"] for k in (0, 3)]
        return [foil["job"]["hex"] for foil in foils], foils

    def test_random_changes_are_undone_and_redone(self):
        for chance in given.chances(6):
            self.page.change("new", discard=True)
            for k in (0, 3):
                half, gap = chance.choice((0, 1)), chance.randint(0, 1)
                self.page.change("begin", foil=k, width=30, height=30, half=half, gap=gap)
            first = self.page.state()["undo"]
            kept = [self.held()]
            for _ in range(40):
                told = self.random_change(chance)
                self.assertTrue("answer" in told or "refused" in told or told["fault"]["kind"] == "asked", told)
                if self.page.state()["undo"] - first == len(kept):
                    kept.append(self.held())
                else:
                    self.assertEqual(self.held(), kept[-1])
            self.assertGreater(len(kept), 10)
            for before in reversed(kept[:-1]):
                self.page.change("undo", foil=0)
                self.assertEqual(self.held(), before)
            for after in kept[1:]:
                self.page.change("redo", foil=0)
                self.assertEqual(self.held(), after)
            self.library.stop()
            self.assertEqual(self.held(), kept[-1])

    def test_a_change_after_an_undo_ends_the_way_forth(self):
        self.have(given.SMALL)
        self.page.change("lift", foil=0, net=1)
        self.assertEqual(self.page.change("undo", foil=0)["answer"]["state"]["redo"], 1)
        self.page.change("draw", foil=0, box=[0, 0, 1, 1])
        state = self.page.state()
        self.assertEqual((state["redo"], state["undo"]), (0, 2))
        self.assertEqual(self.page.change("redo", foil=0)["answer"]["state"]["foil"]["text"], state["foil"]["text"])

    def test_the_job_is_that_of_the_text(self):
        for name in ("reader-keys", "window", "wide-pen"):
            made = self.have(given.sample(name))
            self.assertEqual(made["job"]["hex"], textform.read(given.sample(name)).job.hex())
