"""Orders: saved, opened again, copied, told apart from those of other screens, and not lost with a server."""
import re
import subprocess

from desk import lines, textform
from screen import order, shelf
from screen.tests import given


class Orders(given.Served):
    def saved(self, name="keys", text=given.SMALL, k=0):
        self.have(text, k)
        told = self.page.change("save", name=name)
        self.assertIn("answer", told, told)
        return told["answer"]

    def read(self, name, file):
        return (self.folder / "orders" / name / file).read_bytes()

    def test_what_is_saved(self):
        self.page.change("ink", foil=0, sheet=0.5, bend=0.5, width=None, dead=1)
        made = self.saved(text="# ink: sheet 0.5 bend 0.5 dead 1\n" + given.SMALL)
        self.assertEqual(made["files"], ["keys-ohms.txt", "keys-slip.txt", "keys-words.txt", "keys.html", "keys.job",
                                         "keys.svg", "keys.txt"])
        self.assertFalse(made["state"]["order"]["unsaved"])
        self.assertEqual(self.read("keys", "keys.job"), textform.read(given.SMALL).job)
        self.assertEqual(self.read("keys", "keys-slip.txt").split(), b"1 3 12 1 1".split())
        self.assertIn(b"dead", self.read("keys", "keys-ohms.txt"))
        self.assertIn(b"net 2 (second) from 1,5 to 7,3 (8)", self.read("keys", "keys.html"))
        self.assertIn(b"the nearest free point", self.read("keys", "keys-words.txt"))
        self.assertEqual(self.read("keys", "keys.svg"), self.page.get("file/picture?foil=0"))

    def test_an_order_of_several_foils(self):
        self.saved()
        made = self.saved(text=given.sample("window"), k=5)
        self.assertIn("keys-5.job", made["files"])
        self.page.change("new")
        opened = self.page.change("open", name="keys", foil=5)["answer"]["state"]
        self.assertEqual(opened["foil"]["text"], given.sample("window"))
        self.assertEqual([tab["empty"] for tab in opened["foils"]], [False] + 4 * [True] + [False] + 2 * [True])
        self.have("", 5)
        self.page.change("save")
        self.assertEqual(list((self.folder / "orders" / "keys").glob("keys-5*")), [])

    def test_a_text_that_cannot_be_read_is_saved(self):
        made = self.saved(text="board 9 9 0\nwhat\n")
        self.assertEqual((made["files"], len(made["without"])), (["keys.txt"], 1))
        made = self.saved(text="board 0 9 0\nend\n")
        self.assertEqual(made["files"], ["keys-words.txt", "keys.job", "keys.txt"])

    def test_past_orders(self):
        for name in ("keys", "a window (2)", "Ärmel_3"):
            self.saved(name)
        (self.folder / "orders" / "empty").mkdir()
        listed = self.page.ask("orders")["answer"]["orders"]
        self.assertEqual({row["name"] for row in listed}, {"keys", "a window (2)", "Ärmel_3"})
        self.assertEqual([row["name"] for row in listed if row["open"]], ["Ärmel_3"])

    def test_an_order_of_a_job_file_alone(self):
        folder = self.folder / "orders" / "old"
        folder.mkdir()
        folder.joinpath("old.job").write_bytes(textform.read(given.SMALL).job)
        made = self.page.change("open", name="old")["answer"]["state"]["foil"]
        self.assertEqual(made["job"]["hex"], given.job_of(given.SMALL))

    def test_a_template(self):
        self.saved()
        state = self.page.change("template", name="keys")["answer"]["state"]
        self.assertEqual((state["order"]["name"], state["order"]["unsaved"]), ("", True))
        self.assertEqual(state["foil"]["text"], given.SMALL)
        self.assertEqual(self.page.change("save")["fault"]["kind"], "name")
        self.have("board 3 3 0\nend\n")
        self.assertIn("answer", self.page.change("save", name="copy"))
        self.assertEqual(self.read("keys", "keys.txt").decode(), given.SMALL)

    def test_changes_are_not_lost_by_another_order(self):
        self.saved()
        self.have("board 3 3 0\nend\n")
        for word, values in (("open", {"name": "keys"}), ("new", {}), ("template", {"name": "keys"})):
            self.assertEqual(self.page.change(word, **values)["fault"]["kind"], "unsaved")
        state = self.page.change("open", name="keys", discard=True)["answer"]["state"]
        self.assertEqual(state["foil"]["text"], given.SMALL)
        self.assertEqual(self.page.change("open", name="none")["fault"]["kind"], "absent")

    def test_a_save_over_another_order(self):
        self.saved()
        self.page.change("new")
        self.have("board 3 3 0\nend\n")
        fault = self.page.change("save", name="keys")["fault"]
        self.assertEqual(fault["kind"], "taken")
        self.assertTrue(self.server.session.shelf.slot.startswith("-"))
        self.assertEqual(self.read("keys", "keys.txt").decode(), given.SMALL)
        self.assertIn("answer", self.page.change("save", name="keys", over=fault["digest"]))
        self.assertEqual(self.read("keys", "keys.txt"), b"board 3 3 0\nend\n")

    def test_an_order_that_was_changed_on_the_disk(self):
        self.saved()
        (self.folder / "orders" / "keys" / "keys.txt").write_text("board 5 5 0\nend\n")
        self.have("board 3 3 0\nend\n")
        told = self.page.change("save")
        self.assertEqual(told["fault"]["kind"], "taken")
        self.assertIn("changed since", told["fault"]["why"])

    def test_a_second_screen_is_told(self):
        self.saved()
        _, other = self.serve("two")
        state = other.change("open", name="keys")["answer"]["state"]
        self.assertIn("another screen has this order open, since", state["order"]["other"])
        self.assertEqual(other.change("save")["fault"]["kind"], "taken")
        self.assertEqual(self.page.state()["order"]["other"], "")
        self.page.change("new")
        self.assertEqual(other.change("open", name="keys")["answer"]["state"]["order"]["other"], "")

    def test_a_killed_server_leaves_a_draft(self):
        self.saved()
        self.have("board 3 3 0\nend\n")
        # as a kill would leave it: no release of the order, but of its lock
        self.server.session.shelf.release()
        again = shelf.Shelf(self.folder / "orders").open("keys")
        self.assertEqual(again.texts[0], "board 3 3 0\nend\n")
        self.assertIn("never saved", again.draft)
        again.undo()
        self.assertEqual(again.texts[0], given.SMALL)

    def test_an_order_without_a_name_leaves_a_draft(self):
        self.have(given.SMALL)
        self.server.session.shelf.release()
        kept = shelf.Shelf(self.folder / "orders")
        self.addCleanup(kept.release)
        self.assertEqual(kept.begin(order.Order()).texts[0], "")
        self.assertEqual(kept.slot, "-2")
        self.assertEqual(kept.begin(order.Order(), left=True).texts[0], given.SMALL)
        self.assertEqual(kept.slot, "-1")

    def test_a_text_that_is_no_text(self):
        folder = self.folder / "orders" / "odd"
        folder.mkdir()
        folder.joinpath("odd.txt").write_bytes(b"board 9 9 0 # \xff\nend\n")
        self.assertIn("UTF-8", self.page.change("open", name="odd")["fault"]["why"])
        folder.joinpath("odd.txt").write_bytes(b"# " + b"x" * 4_000_000)
        self.assertEqual(self.page.change("open", name="odd")["fault"]["kind"], "large")
        folder.joinpath("odd.txt").write_bytes(b"\xef\xbb\xbfboard 9 9 0\r\nend\r\n")
        state = self.page.change("open", name="odd")["answer"]["state"]
        self.assertEqual(state["foil"]["text"], "board 9 9 0\nend\n")

    def test_a_save_ends_the_draft(self):
        self.saved()
        self.assertEqual(list((self.folder / "orders" / ".screen").glob("*.draft")), [])
        self.have("board 3 3 0\nend\n")
        self.assertEqual(len(list((self.folder / "orders" / ".screen").glob("*.draft"))), 1)
        self.assertTrue(self.page.state()["order"]["unsaved"])
        self.page.change("undo")
        self.assertFalse(self.page.state()["order"]["unsaved"])
        self.assertEqual(list((self.folder / "orders" / ".screen").glob("*.draft")), [])
        self.page.change("redo")
        self.page.change("new", discard=True)
        self.assertEqual(list((self.folder / "orders" / ".screen").glob("*.draft")), [])

    def test_the_pages_for_print(self):
        self.have(given.sample("reader-keys"))
        page = self.page.get("print/foil?foil=0&mm=0.5").decode()
        self.assertEqual(self.page.status, 200)
        self.assertIn("the foil 61 by 61 mm", page)
        wide, unit, scale = (float(re.search(form, page)[1]) for form in (
            r'<svg [^>]*\bwidth="([\d.]+)mm"', r'viewBox="0 0 ([\d.]+) ', r"scale\(([\d.]+)\)"))
        self.assertAlmostEqual(wide / unit * scale, 0.5, 3)
        self.assertIn("sandbox", self.page.headers["Content-Security-Policy"])
        carton = self.page.get("print/carton?foil=0").decode()
        self.assertIn("No track is open", carton)
        for rest, status in (("print/foil?mm=0", 400), ("print/foil?mm=x", 400), ("print/what", 404),
                             ("file/what", 404), ("file/job?foil=8", 400), ("file/picture?foil=1", 409)):
            self.page.get(rest)
            self.assertEqual(self.page.status, status, rest)
        self.assertEqual(self.page.get("file/job?foil=0"), textform.read(given.sample("reader-keys")).job)
        self.assertEqual(self.page.get("file/text?foil=0").decode(), given.sample("reader-keys"))


class ByTheProgram(given.Served):
    def written(self, job):
        """What the job program writes for a job."""
        return subprocess.run([given.JOB], input=job, stdout=subprocess.PIPE, check=True).stdout.decode("ascii")

    def shown(self, foil):
        """What the screen shows, as the job program's lines have it: tracks and strips."""
        tracks = ["track %d 0 %d" % (net["net"], net["bends"]) + "".join(" %d,%d" % tuple(of) for of in net["corners"])
                  for net in foil["nets"] if net["corners"]]
        flat = foil["strips"]
        return set(tracks), ["strip %d %d %d %d" % tuple(flat[at:at + 4]) for at in range(0, len(flat), 4)]

    def test_samples_are_shown_as_their_lines_have_them(self):
        for path in sorted(given.SAMPLES.glob("*.txt")):
            with self.subTest(path.stem):
                written = path.with_suffix(".out").read_text(encoding="ascii")
                foil = self.have(path.read_text(encoding="utf-8"))
                tracks, strips = self.shown(foil)
                self.assertEqual(strips if foil["fault"] is None else [], [
                    line for line in written.splitlines() if line.startswith("strip")])
                self.assertLessEqual(tracks, set(written.splitlines()))
                run = lines.run_of(bytes.fromhex(foil["job"]["hex"]), written)
                self.assertEqual(sum(row["refused"] for row in foil["rows"]), len(run.refused) + (
                    1 if run.fault else 0))

    @given.with_job
    def test_a_saved_job_gives_what_the_screen_shows(self):
        for at, chance in enumerate(given.chances(4)):
            self.page.change("new", discard=True)
            self.page.change("begin", foil=0, width=40, height=40, half=at % 2, gap=1)
            for _ in range(50):
                self.some_click(chance)
            name = "random %d" % at
            self.assertIn("answer", self.page.change("save", name=name))
            job = (self.folder / "orders" / name / (name + ".job")).read_bytes()
            foil, written = self.foil(), self.written(job)
            self.assertEqual(foil["job"]["hex"], job.hex())
            tracks, strips = self.shown(foil)
            self.assertEqual(strips, [line for line in written.splitlines() if line.startswith("strip")])
            self.assertLessEqual(tracks, set(written.splitlines()))
            self.assertNotIn(1, [row["refused"] for row in foil["rows"]])
            self.assertGreater(len(foil["nets"]), 1)

    def some_click(self, chance):
        """A click, accepted or refused."""
        point = lambda: [chance.randrange(40), chance.randrange(40)]
        x, y = point()
        word, values = chance.choice((
            ("lay", {"net": chance.randint(1, 30), "from": point(), "to": point()}),
            ("draw", {"box": [x, y, x + 2, y + 2]}), ("join", {"net": chance.randint(1, 30), "point": point()}),
            ("lift", {"net": chance.randint(1, 30)})))
        return self.page.change(word, foil=0, **values)
