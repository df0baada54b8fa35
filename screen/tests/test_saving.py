"""One truth of an order: what ./foil-order writes beside the screen is never written over without a word, what is
amiss in a folder is said, and both tools make the same files from one text."""
import contextlib
import errno
import io
import os
import pathlib
import shutil
import unittest
from typing import Dict, List, Tuple
from unittest import mock

from desk import building, carton, folders, orders, outputs, textform
from desk.tests import test_answers
from screen import shelf
from screen.tests import given

OTHER = "board 9 9 0\nend\n"
INK = "# ink: sheet 0.5 bend 0.5 dead 3\n"
PROGRAMS = {name: given.JOB.with_name(name) for name in ("job_main", "slip_main", "ohms_main", "save_main")}
with_programs = unittest.skipIf(test_answers.MISSING, "not built: %s" % ", ".join(test_answers.MISSING))


class Saving(given.Served):
    def save(self, text: str = given.SMALL, name: str = "lewes", **how: str) -> Dict[str, dict]:
        """Saves a text as an order: the envelope."""
        self.have(text)
        return self.page.change("save", name=name, **how)

    def order(self, text: str, *words: str, name: str = "lewes") -> Tuple[int, str]:
        """Runs ./foil-order on a text: its status, and what it says."""
        path = self.folder / (name + ".txt")
        path.write_text(text)
        out, err = io.StringIO(), io.StringIO()
        with mock.patch.object(building, "built", side_effect=lambda *names: [PROGRAMS[name] for name in names]), \
                contextlib.redirect_stdout(out), contextlib.redirect_stderr(err):
            status = orders.main(["--to", str(self.folder / "orders"), *words, str(path)])
        return status, out.getvalue() + err.getvalue()

    def held(self, name: str = "lewes") -> Dict[str, bytes]:
        """What is in the folder of an order, the date apart."""
        return {path.name: carton.undated(path.read_bytes()) for path in (self.folder / "orders" / name).iterdir()}

    @with_programs
    def test_both_tools_make_the_same_files(self) -> None:
        for name in ("less-ink", "window", "reader-keys", "wide-pen", "refusals", "cut-short", "board-size"):
            with self.subTest(name):
                text = INK + "# order: 4711; customer: Lewes; point: 0.25 mm\n" + given.sample(name)
                self.assertIn("answer", self.save(text, name))
                saved = self.held(name)
                shutil.rmtree(self.folder / "orders" / name)
                self.order(text, name=name)
                self.assertEqual(self.held(name), saved)

    @with_programs
    def test_an_order_that_is_made_anew_while_it_is_open(self) -> None:
        self.save()
        status, said = self.order(OTHER)
        self.assertEqual(status, 4)
        self.assertIn("lewes.txt is another text, first in line 1", said)
        self.assertEqual(self.order(OTHER, "--replace")[0], 0)
        made = self.held()
        self.assertEqual(made["lewes.txt"].decode(), OTHER)
        self.have(given.SMALL + "# more\n")
        for _ in range(2):
            fault = self.page.change("save")["fault"]
            self.assertEqual((fault["kind"], self.held()), ("taken", made))
            for said in ("was changed since it was opened here", "lewes.txt is another text", "lewes.job"):
                self.assertIn(said, fault["why"])
        self.assertIn("answer", self.page.change("save", over=fault["digest"]))
        self.assertEqual(self.held()["lewes.txt"].decode(), given.SMALL + "# more\n")

    @with_programs
    def test_an_order_that_is_opened_is_the_new_one(self) -> None:
        self.save()
        self.order(OTHER, "--replace")
        state = self.page.change("open", name="lewes", discard=True)["answer"]["state"]
        self.assertEqual((state["foil"]["text"], state["order"]["other"]), (OTHER, ""))
        self.assertIn("answer", self.save(given.SMALL))

    def test_each_file_of_the_folder_counts(self) -> None:
        self.save(INK + given.SMALL)
        for name in self.held():
            with self.subTest(name):
                path = self.folder / "orders" / "lewes" / name
                kept = path.read_bytes()
                path.write_bytes(kept + b" ")
                self.have(INK + given.SMALL + "# more\n")
                fault = self.page.change("save")["fault"]
                self.assertEqual(fault["kind"], "taken")
                self.assertIn(name, fault["why"])
                path.write_bytes(kept)
        self.assertIn("answer", self.page.change("save"))

    def test_only_what_was_told_is_written_over(self) -> None:
        self.save()
        path = self.folder / "orders" / "lewes" / "lewes.txt"
        path.write_text(OTHER)
        fault = self.save(given.SMALL + "# more\n")["fault"]
        path.write_text(OTHER + "# and again\n")
        again = self.page.change("save", over=fault["digest"])["fault"]
        self.assertEqual((again["kind"], path.read_text()), ("taken", OTHER + "# and again\n"))
        self.assertEqual(self.page.change("save", over=True)["fault"]["kind"], "asked")
        self.assertIn("answer", self.page.change("save", over=again["digest"]))

    def test_an_order_without_its_text_says_that_names_are_missing(self) -> None:
        folder = self.folder / "orders" / "old"
        folder.mkdir()
        folder.joinpath("old.job").write_bytes(textform.read(given.SMALL).job)
        state = self.page.change("open", name="old")["answer"]["state"]
        self.assertEqual(state["order"]["other"],
                         "old.job has no text beside it, so names and remarks are missing here")
        state = self.page.change("save")["answer"]["state"]
        self.assertEqual((state["order"]["other"], folder.joinpath("old.txt").exists()), ("", True))

    def test_a_job_that_is_not_of_its_text_is_said_and_asked(self) -> None:
        """As an earlier ./foil-order has left it: a new job beside the old text."""
        self.save()
        path = self.folder / "orders" / "lewes" / "lewes.job"
        path.write_bytes(textform.read(OTHER).job)
        state = self.page.change("open", name="lewes")["answer"]["state"]
        self.assertIn("lewes.job is not made from the text beside it", state["order"]["other"])
        self.have(given.SMALL + "# more\n")
        fault = self.page.change("save")["fault"]
        self.assertEqual((fault["kind"], path.read_bytes()), ("taken", textform.read(OTHER).job))
        self.assertIn("answer", self.page.change("save", over=fault["digest"]))

    def test_a_draft_from_before_the_order_was_made_anew(self) -> None:
        self.save()
        self.have(given.SMALL + "# a draft\n")
        self.server.session.shelf.release()
        made = {"lewes.txt": OTHER.encode(), "lewes.job": textform.read(OTHER).job}
        folders.write(self.folder / "orders", "lewes", made, replace=True)
        kept = shelf.Shelf(self.folder / "orders")
        self.addCleanup(kept.release)
        again = kept.open("lewes")
        self.assertIn("is another than the one that they change", again.draft)
        with self.assertRaises(shelf.Fault) as raised:
            kept.save(again, "lewes", {"lewes.txt": again.texts[0].encode()}, "")
        self.assertEqual((raised.exception.kind, self.held()), ("taken", made))

    def test_a_full_disk(self) -> None:
        self.save()
        before, put_new = self.held(), outputs.put_new
        self.have(OTHER)
        for full in range(1, len(before) + 1):
            left = iter(range(1, 99))

            def cut(place: pathlib.Path, content: bytes, mode: object = None) -> None:
                if next(left) == full:
                    place.write_bytes(content[:5])
                    raise OSError(errno.ENOSPC, os.strerror(errno.ENOSPC))
                put_new(place, content)

            with mock.patch.object(outputs, "put_new", cut):
                fault = self.page.change("save")["fault"]
            self.assertEqual(fault["kind"], "files")
            self.assertIn("No space left on device; the order is as it was", fault["why"])
            self.assertEqual((self.held(), self.shown()), (before, ["lewes"]))
            self.assertTrue(self.page.state()["order"]["unsaved"])

    def test_a_draft_that_cannot_be_kept(self) -> None:
        full = OSError(errno.ENOSPC, os.strerror(errno.ENOSPC))
        with mock.patch.object(shelf.Shelf, "write", side_effect=full):
            self.have(given.SMALL)
        said = "changes are not kept on the disk until a save (No space left on device)"
        self.assertEqual(self.page.state()["order"]["other"], said)
        self.have(OTHER)
        self.assertEqual(self.page.state()["order"]["other"], "")

    def shown(self) -> List[str]:
        """What is in the orders' folder, but for the screens' own."""
        return sorted(name for name in os.listdir(self.folder / "orders") if name != ".screen")

    def test_a_stop_between_the_two_renames(self) -> None:
        self.save()
        folder = self.folder / "orders"
        (folder / "lewes").rename(folder / ".lewes.old")
        (folder / ".lewes.new").mkdir()
        self.assertEqual([row["name"] for row in self.page.ask("orders")["answer"]["orders"]], ["lewes"])
        self.assertEqual(self.shown(), ["lewes"])

    def test_a_name_that_is_made_safe(self) -> None:
        name = "O'Neil & Sons, #4"
        self.assertIn("answer", self.save(name=name))
        self.assertEqual(self.shown(), ["O%27Neil %26 Sons%2C %234"])
        self.assertIn(b"<h1>O&#x27;Neil &amp; Sons, #4</h1>", self.page.get("print/carton?foil=0"))
        self.assertEqual([row["name"] for row in self.page.ask("orders")["answer"]["orders"]], [name])
        self.page.change("new")
        state = self.page.change("open", name=name)["answer"]["state"]
        self.assertEqual((state["order"]["name"], state["foil"]["text"]), (name, given.SMALL))

    def test_a_text_in_utf_16(self) -> None:
        folder = self.folder / "orders" / "wide"
        folder.mkdir()
        for code in ("utf-16", "utf-16-le", "utf-16-be"):
            folder.joinpath("wide.txt").write_bytes(given.SMALL.encode(code))
            fault = self.page.change("open", name="wide")["fault"]
            self.assertEqual(fault["why"], "wide.txt, line 1: this is text in UTF-16: save it as UTF-8")

    def test_words_in_capitals(self) -> None:
        foil = self.have("Board 9 9 0, Patch 4 2 5 7\nTRACK 1 1 4 7 4\nEND\n")
        self.assertEqual([net["net"] for net in foil["nets"]], [1])
        self.assertIn("answer", self.page.change("lay", foil=0, net=2, **{"from": [0, 0], "to": [0, 8]}))
        self.assertIn("answer", self.page.change("begin", foil=0, width=12, height=12, half=0, gap=0))
        self.assertEqual(self.foil()["text"], "board 12 12 0, patch 4 2 5 7\nTRACK 1 1 4 7 4\ntrack 2 0 0 0 8\nEND\n")


if __name__ == "__main__":
    unittest.main()
