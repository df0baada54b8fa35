"""The carton's page as a printer has it: how many sheets it takes, and what stands on each. Chromium prints it, where
that and poppler's pdftotext are installed."""
import pathlib
import re
import shutil
import subprocess
import tempfile
import unittest
from typing import Dict, List

from desk import checks, foils, lines, names, papers, remarks, textform
from desk.tests import given, test_answers

WANTED = {"chromium": ("chromium", "chromium-browser", "google-chrome"), "pdftotext": ("pdftotext",)}
FOUND = {name: next(filter(None, map(shutil.which, programs)), None) for name, programs in WANTED.items()}
NOT_THERE = "the carton's page is not printed: there is no %s" % " and no ".join(
    name for name, path in FOUND.items() if not path)
SAID = "# order: 4711; customer: Lewes & Sons' library, 2nd floor; quantity: 12"
COLUMNS = "net legs length x y"
NAMES = ["Page on", "Page back", "Larger letters", "Smaller letters", "Light on or off", "Bookmark this page",
         "Contents", "Search in all books", "Read it aloud", "Pause", "Volume up", "Volume down"]


def page_of(text: str, written: str, date: str = "2026-11-18") -> str:
    """The carton's page of a text, by the lines that its job writes."""
    read = textform.read(text)
    run = lines.run_of(read.job, written)
    foil = foils.foil_of(run, names.names_of(read))
    answered = papers.Answered("Lewes' keys, #4", text, read.job, "words", foil,
                               checks.findings(foil, len(run.outcomes)), test_answers.slip(run).decode("ascii"))
    return papers.files_of(answered, date)[".html"].decode()


def twelve_keys(name: str = "%s") -> str:
    """The page of a reader's twelve keys with their names and those of their nets, and a track that is open."""
    keys, nets, shown = iter(NAMES), iter(NAMES), []
    for line in given.text_of("reader-keys").splitlines():
        if line.startswith("patch"):
            line += "  # key: " + name % next(keys)
        elif line.startswith("track"):
            line += "  # net: to " + name % next(nets)
        shown += ["track 13 0 0 9 9  # net: to nothing"] * (line == "end") + [line]
    written = given.written_for("reader-keys").replace("strip", "track 13 8\nstrip", 1)
    return page_of("\n".join([SAID, *shown, ""]), written)


def many_nets(count: int = 60) -> str:
    """The page of a foil with so many tracks, more than a sheet has lines for."""
    tracks = ["track %d 2 %d 90 %d" % (net, 4 * net, 4 * net) for net in range(1, count + 1)]
    written = ["track %d 0 0 2,%d 90,%d" % (net, 4 * net, 4 * net) for net in range(1, count + 1)]
    return page_of("\n".join(["board 100 300 0", *tracks, "end", ""]),
                   "\n".join(["board 0", *written, "strip 0 0 100 4", ""]))


class Said(unittest.TestCase):
    def test_for_whom_the_order_is(self) -> None:
        self.assertEqual(remarks.particulars("board 9 9 0\n" + SAID + "\nend\n"), {
            "order": "4711", "customer": "Lewes & Sons' library, 2nd floor", "quantity": "12"})
        self.assertEqual(remarks.particulars("board 9 9 0 # order: 7 ;quantity:3\n# order: 8\n"),
                         {"order": "7", "quantity": "3"})
        self.assertEqual(remarks.particulars("# the order: 7\n# orders: 8\n#order:\n"), {})
        self.assertIn("<p>Order: 4711 · Customer: Lewes &amp; Sons&#x27; library, 2nd floor · Quantity: 12</p>",
                      twelve_keys())
        self.assertNotIn("Customer", many_nets())


@unittest.skipIf(not all(FOUND.values()), NOT_THERE)
class Printed(unittest.TestCase):
    def sheets(self, page: str, size: str) -> List[str]:
        """What stands on each sheet of a page that is printed on paper of a size."""
        with tempfile.TemporaryDirectory() as folder:
            given_page, printed = pathlib.Path(folder) / "page.html", pathlib.Path(folder) / "page.pdf"
            given_page.write_text(page.replace("</head>", "<style>@page { size: %s }</style></head>" % size),
                                  encoding="utf-8")
            done = subprocess.run(
                [str(FOUND["chromium"]), "--headless", "--no-sandbox", "--disable-gpu", "--no-pdf-header-footer",
                 "--user-data-dir=%s/profile" % folder, "--print-to-pdf=%s" % printed, given_page.as_uri()],
                stdout=subprocess.PIPE, stderr=subprocess.STDOUT, timeout=120)
            self.assertTrue(printed.is_file(), done.stdout.decode(errors="replace"))
            shown = subprocess.run([str(FOUND["pdftotext"]), "-layout", printed, "-"], stdout=subprocess.PIPE,
                                   check=True).stdout.decode()
        return shown.split("\f")[:-1]

    def test_twelve_keys_and_an_open_track_fit_one_sheet(self) -> None:
        pages: Dict[str, str] = {"named": twelve_keys(), "long names": twelve_keys("the key that is %s")}
        for size in ("letter", "A4"):
            for kind, page in pages.items():
                with self.subTest(size, page=kind):
                    sheet, = self.sheets(page, size)
                    for there in ("Lewes' keys, #4 2026-11-18", "Order: 4711", "net 13 (to nothing) from 0,0",
                                  "Volume down: patch 92 84 108 96", COLUMNS):
                        self.assertIn(there, " ".join(sheet.split()))
                    self.assertEqual(len(re.findall(r"^ *\d+ +\d+ +\d+ +\d+ +\d+  +to ", sheet, re.M)), 12)

    def test_every_sheet_has_the_name_and_the_columns(self) -> None:
        for size in ("letter", "A4"):
            first, *more = self.sheets(many_nets(), size)
            self.assertTrue(more)
            for sheet in [first, *more]:
                self.assertTrue(" ".join(sheet.split()).startswith("Lewes' keys, #4 2026-11-18 "))
                self.assertEqual(" ".join(sheet.split()).count(COLUMNS), 1)
            nets = [int(net) for sheet in [first, *more]
                    for net in re.findall(r"^ *(\d+) +1 +88 +2 +\d+\s*$", sheet, re.M)]
            self.assertEqual(nets, list(range(1, 61)))


if __name__ == "__main__":
    unittest.main()
