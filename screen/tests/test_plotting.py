"""The plot file by the screen: as ./foil-plot writes it, with the same refusals."""
import contextlib
import io
import sys
import unittest
from unittest import mock

from desk import building
from desk.plotting import command, formats
from desk.tests import test_answers
from screen.tests import given

PROGRAMS = {name: given.JOB.with_name(name) for name in ("job_main", "save_main")}
with_programs = unittest.skipIf(test_answers.MISSING, "not built: %s" % ", ".join(test_answers.MISSING))


class Plotting(given.Served):
    def by_command(self, text: str, *words: str) -> str:
        """What ./foil-plot writes for a text of the name of the order."""
        path = self.folder / "foil.txt"
        path.write_text(text)
        printed = io.BytesIO()
        out = io.TextIOWrapper(printed, newline="")
        with mock.patch.object(building, "built", side_effect=lambda *names: [PROGRAMS[name] for name in names]), \
                contextlib.redirect_stdout(out), mock.patch.object(sys, "stderr", io.StringIO()):
            command.main([*words, str(path)])
        return printed.getvalue().decode()

    @with_programs
    def test_the_screen_and_the_command_write_the_same_file(self) -> None:
        for name in ("reader-keys", "wide-pen", "document-01"):
            text = given.sample(name)
            self.have(text)
            for form, spec in formats.FORMATS.items():
                with self.subTest(name, format=form):
                    made = self.page.ask("plot", foil=0, format=form, mm="0.25", travel=True, open=True)["answer"]
                    wanted = self.by_command(text, "--mm", "0.25", "--format", form, "--order", "travel", "--open")
                    self.assertEqual((made["name"], made["content"]), ("foil" + spec.ending, wanted))

    def test_an_open_foil_is_plotted_only_if_that_is_said(self) -> None:
        self.have("# point: 0.5 mm\n" + given.SMALL)
        fault = self.page.ask("plot", foil=0, format="hpgl")["fault"]
        self.assertEqual((self.page.status, fault["kind"]), (409, "open"))
        self.assertIn("1 of 4 steps was refused; open: net 2 (second) from 1,5 to 7,3", fault["why"])
        self.assertIn("PD", self.page.ask("plot", foil=0, format="hpgl", open=True)["answer"]["content"])

    def test_a_size_is_wanted_and_a_format(self) -> None:
        self.have("board 9 9 0\ntrack 1 1 1 5 1\nend\n")
        for values, why in (({"format": "hpgl"}, "it is not known how large a point is"),
                            ({"format": "hpgl", "mm": "x"}, "is no length in millimetres"),
                            ({"format": "pdf", "mm": "1"}, "a plot file is hpgl, gerber"),
                            ({"format": "svg", "mm": "1", "patches": "dots"}, "with patches filled, outline or none")):
            fault = self.page.ask("plot", foil=0, **values)["fault"]
            self.assertEqual((self.page.status, fault["kind"]), (400, "asked"))
            self.assertIn(why, fault["why"])
        self.assertEqual(self.page.ask("plot", foil=1, format="svg", mm="1")["fault"]["kind"], "unread")

    def test_a_text_in_millimetres(self) -> None:
        foil = self.have("board 4.5mm 4.5mm 0  # point: 0.5 mm\ntrack 1 0.5mm 0.5mm 2.5mm 0.5mm\nend\n")
        self.assertEqual((foil["board"]["width"], len(foil["nets"])), (9, 1))


if __name__ == "__main__":
    unittest.main()
