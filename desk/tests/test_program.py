"""The tools against the job program, where it is built."""
import itertools
import unittest
import xml.etree.ElementTree as ET

from desk import boxes, command, foils, job, lines, picture, program, refusals, textform, words
from desk.tests import given

TABLE = refusals.readme_table()
# a text for each number that the job program has for a step: its last step but `end` meets the number
GRID = "".join("patch %d 0 %d 127\n" % (x, x + 1) for x in range(1, 129, 2))
GRID += "".join("patch 0 %d 129 %d\n" % (y, y + 1) for y in range(1, 124, 2))
REFUSED = {
    1: "board 0 4 0\n",
    2: "board 4 4 16\n",
    20: "board 4 4 pen 8 0\n",
    3: "board 4 4 0\npatch 0 0 5 1\n",
    4: "board 4 4 0\ntrack 0 0 0 1 1\n",
    5: "board 4 4 0\ntrack 1 0 0 1 1\ntrack 1 3 3 3 3\n",
    6: "board 4 4 0\nlift 1\n",
    7: "board 4 4 0\ntrack 1 0 0 4 0\n",
    8: "board 4 4 0\npatch 0 0 1 1\ntrack 1 0 0 1 0\n",
    9: "board 3 3 0, patch 1 0 2 3\ntrack 1 0 0 2 0\n",
    10: "board 4 4 0\n" + "patch 0 0 1 1\n" * 129,
    11: "board 129 127 0\n" + GRID + "patch 0 125 129 126\n",
}
FAULTS = {
    14: b"\x01\x04\x00\x04\x00\x00\x00", 15: b"\x01\x04\x00\x04\x00\x00\x00\x40\x00", 16: b"\x20\x00\x00\x00\x00\x00",
    17: b"\x01\x04\x00\x04\x00\x00\x00\x00\x00", 18: bytes(60_001),
}


@given.with_program
class Program(unittest.TestCase):
    def run_job(self, made):
        return lines.run_of(made, program.run(given.BUILT, made))

    def test_samples(self):
        for name in given.NAMES:
            with self.subTest(name):
                made = textform.read(given.text_of(name)).job
                self.assertEqual(program.run(given.BUILT, made), given.written_for(name))

    def test_each_refusal_has_its_words(self):
        for number, text in REFUSED.items():
            with self.subTest(number):
                read = textform.read(text + "end\n")
                refused = [row for row in words.rows(read, self.run_job(read.job), TABLE) if row.refused]
                says, to_do = TABLE[number]
                told = ["refused (%d): %s" % (number, says), "what to do: " + to_do]
                self.assertEqual([row.words for row in refused], [told])

    def test_each_fault_has_its_words(self):
        for number, made in FAULTS.items():
            with self.subTest(number):
                rows = words.rows(textform.read(textform.show(made)), self.run_job(made), TABLE)
                refused = [row for row in rows if row.refused]
                self.assertEqual([row.words[0] for row in refused], ["at fault (%d): %s" % (number, TABLE[number][0])])

    def test_random_jobs(self):
        for chance in given.seeds(150):
            text = given.random_text(chance, largest=chance.choice([6, 20, 60]), most=20)
            run = self.run_job(textform.read(text).job)
            left = foils.foil_of(run)
            self.assertIsNotNone(run.strips)
            root = ET.fromstring(picture.picture(left, "a job", True, TABLE))
            self.assertEqual(sum(element.tag.endswith("}path") for element in root.iter()), len(left.nets))
            self.assertTrue(words.page(words.rows(textform.read(text), run, TABLE)))

    def test_random_files_are_at_fault_by_the_same_number(self):
        for chance in given.seeds(600):
            made = given.random_file(chance)
            run = self.run_job(made)
            refused_board = bool(run.outcomes and run.outcomes[0].said and run.outcomes[0].said.number)
            if not refused_board:
                self.assertEqual(run.fault.number if run.fault else 0, job.file_number(made), made.hex())
                self.assertEqual(run.place, job.read(made).place - (0 if run.fault else 1), made.hex())

    def test_the_text_of_a_job_gives_its_lines(self):
        for chance in given.seeds(60):
            made = given.random_file(chance)
            again = textform.read(textform.show(made)).job
            self.assertEqual(program.run(given.BUILT, again), program.run(given.BUILT, made))

    def foils_of_pens(self):
        """Foils with a few patches, and tracks of a pen, by chance."""
        for chance in given.seeds(60):
            half, gap = chance.randint(0, 3), chance.randint(0, 3)
            points = [" ".join(str(chance.randint(0, 59)) for _ in range(4)) for _ in range(8)]
            tracks = "".join("track %d %s\n" % track for track in enumerate(points, 1))
            corners = [(chance.randint(0, 50), chance.randint(0, 50)) for _ in range(3)]
            patches = "".join("patch %d %d %d %d\n" % (x, y, x + 5, y + 9) for x, y in corners)
            yield given.foil_of("board 60 60 pen %d %d\n%s%send\n" % (half, gap, patches, tracks))

    def test_what_is_white_in_the_picture_is_free(self):
        for left in self.foils_of_pens():
            left = left._replace(refused=[])
            root = ET.fromstring(picture.picture(left, "a foil", False, TABLE))
            free = {(x, y) for x in range(left.width) for y in range(left.height)}
            for rect in root.find("{*}g").findall("{*}rect"):
                if rect.get("class") in ("kept", "clearance", "edge", "patch"):
                    x, y, wide, high = (round(float(rect.get(name))) for name in ("x", "y", "width", "height"))
                    free -= {(at, row) for at in range(x, x + wide) for row in range(y, y + high)}
            for net in left.nets:
                for x0, y0, x1, y1 in net.legs:
                    free -= {(x, y) for x in range(x0, x1) for y in range(y0, y1)}
            strips = {(x, y) for x0, y0, x1, y1 in left.strips for x in range(x0, x1) for y in range(y0, y1)}
            self.assertEqual(free, strips)

    def test_ink_keeps_the_gap_to_other_ink(self):
        for left in self.foils_of_pens():
            ink = [(net.net, boxes.widened(leg, left.half)) for net in left.nets for leg in net.legs]
            for (net, a), (other, b) in itertools.combinations(ink, 2):
                if net != other:
                    self.assertEqual(boxes.area(boxes.common(a, b)), 0)
                    self.assertGreaterEqual(boxes.apart(a, b), left.gap)

    def test_ink_keeps_the_gap_to_the_edge(self):
        for left in self.foils_of_pens():
            inner = boxes.widened((0, 0, left.width, left.height), -left.gap)
            for net in left.nets:
                for leg in net.legs:
                    self.assertTrue(boxes.inside(boxes.widened(leg, left.half), inner))

    def test_the_command(self):
        self.assertEqual(command.main(["--quiet", str(given.SAMPLES / "document-01.txt")], given.BUILT), 0)


if __name__ == "__main__":
    unittest.main()
