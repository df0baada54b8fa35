"""Plot files, read back: each format by a reader of the tests, and by Debian's hp2xx and gerbv where these are there.
What is plotted is the table that the proved programs save."""
import pathlib
import random
import re
import shutil
import subprocess
import tempfile
import unittest
import xml.etree.ElementTree as ET
from typing import List, Set, Tuple

from desk import foils, lines, picture, program, textform
from desk.plotting import formats, sheets, tables
from desk.tests import given, plot_readers

SAVE = given.BUILT.with_name("save_main")
SIZES = (250_000, 100_000, 330_000, 127_000, 30_000, 1_000_000, 333_330)
# a point of half a millimetre has so many pixels in the pictures of others, at a tenth of a millimetre or half of that
HALF_MM, GERBV_PIXELS, GERBV_DPI, HP2XX_PIXELS, HP2XX_DPI = 500_000, 5, 254, 10, 508
Point = Tuple[int, int]
with_gerbv = unittest.skipUnless(shutil.which("gerbv"),
                                 "gerbv is not installed: its pictures of Gerber files are not compared")


def saved_of(text: str) -> bytes:
    """What the proved program saves of the foil that a text leaves; empty where there is none."""
    return bytes(program.written(SAVE, textform.read(text).job).out)


def legs_said(saved: bytes) -> List[Tuple[int, ...]]:
    """The legs of a saved foil, by the text of the file: a net and four numbers each."""
    said = [line.split() for line in textform.show(saved).splitlines()]
    return sorted(tuple(map(int, words[1:])) for words in said if words[0] == "leg")


def patches_said(saved: bytes) -> Set[Tuple[int, ...]]:
    """The patches of a saved foil, by the text of the file."""
    said = [line.split() for line in textform.show(saved).splitlines()]
    return {tuple(map(int, words[1:])) for words in said if words[0] == "patch"}


def random_saved(seed: int) -> bytes:
    """A foil of a random job, with wide pens, joins by legs and legs of one point."""
    chance = random.Random(seed)
    wide, high, half = chance.randint(8, 50), chance.randint(8, 50), chance.randint(0, 2)
    steps = [f"board {wide} {high} pen {half} {chance.randint(0, 2)}"]
    for net in range(1, chance.randint(3, 12)):
        x, y = chance.randrange(wide), chance.randrange(high)
        steps.append(chance.choice([
            f"patch {x} {y} {min(wide, x + chance.randint(1, 9))} {min(high, y + chance.randint(1, 9))}",
            f"track {net} {x} {y} {chance.randrange(wide)} {chance.randrange(high)}",
            f"track {net} {x} {y} {x} {y}",
            f"leg {net} {x} {y} {min(wide, x + chance.randint(1, 9))} {y + 1}\n"
            f"leg {net} {x} {y} {x + 1} {min(high, y + chance.randint(1, 9))}\n"
            f"leg {net} {x} {y} {min(wide, x + chance.randint(1, 5))} {y + 1}"]))
    return saved_of("\n".join(steps + ["end"]))


def foils_saved() -> List[Tuple[str, bytes]]:
    """The foils of all samples that leave one, and random ones."""
    made = [(name, saved_of(given.text_of(name))) for name in given.NAMES]
    return [(name, saved) for name, saved in made if saved] + [(f"seed {at}", random_saved(at)) for at in range(60)]


def point_of(corner: Point, size: int, within: int) -> Point:
    """The point whose middle a place is, up to a tolerance."""
    points = [at // size for at in corner]
    for at, number in zip(corner, points):
        assert abs(at - (2 * number + 1) * size // 2) <= within, (corner, size)
    return points[0], points[1]


def legs_read(read: plot_readers.Read, size: int, high: int, offset: Point, name: str) -> List[Tuple[int, ...]]:
    """The legs that a file draws, in points of the foil, with their nets where the format has them."""
    made = []
    for stroke in read.strokes:
        if stroke.net == 0:
            continue
        points = []
        for x, y in stroke.corners:
            down = high + offset[1] - y if name in plot_readers.UPWARDS else y - offset[1]
            points.append(point_of((x - offset[0], down), size, 12_500 if name == "hpgl" else 0))
        for (a, b), (c, d) in list(zip(points, points[1:])) or [(points[0], points[0])]:
            made.append((stroke.net or 0, min(a, c), min(b, d), max(a, c) + 1, max(b, d) + 1))
    return sorted(made)


@given.with_program
class ReadBack(unittest.TestCase):
    def test_every_leg_is_drawn_once_and_nothing_else(self) -> None:
        for at, (called, saved) in enumerate(foils_saved()):
            table, chance = tables.table_of(saved), random.Random(at)
            size, offset = SIZES[at % len(SIZES)], (chance.randrange(9) * 1_000_000, chance.randrange(9) * 500_000)
            manner = sheets.Manner(travel=at % 2 == 1, offset=offset)
            for name, reader in plot_readers.READERS.items():
                with self.subTest(called, format=name, size=size):
                    plot = formats.plot_of(called, [sheets.Foil(3, called, table, size)], manner, name)
                    read = reader(plot.content.decode("ascii"))
                    legs = legs_read(read, size, table.height * size, offset, name)
                    wanted = legs_said(saved)
                    if name == "hpgl":
                        wanted = sorted((0, *leg[1:]) for leg in wanted)
                    self.assertEqual(legs, wanted)
                    self.assertEqual({stroke.wide for stroke in read.strokes} or {(2 * table.half + 1) * size},
                                     {(2 * table.half + 1) * size})
                    self.assertEqual({stroke.foil for stroke in read.strokes} - {None},
                                     {3} if wanted and name != "hpgl" else set())
                    self.assertEqual(read.areas, [])

    def test_filled_patches_cover_their_points_and_no_others(self) -> None:
        for called, saved in foils_saved():
            table, size = tables.table_of(saved), 250_000
            high = table.height * size
            for name, reader in plot_readers.READERS.items():
                form = formats.FORMATS[name]
                if form.hatched:
                    continue
                with self.subTest(called, format=name):
                    manner = sheets.Manner(patches=sheets.FILLED)
                    plot = formats.plot_of(called, [sheets.Foil(0, called, table, size)], manner, name)
                    read = reader(plot.content.decode("ascii"))
                    boxes = set()
                    for x0, y0, x1, y1 in read.areas:
                        top, foot = (high - y1, high - y0) if name in plot_readers.UPWARDS else (y0, y1)
                        boxes.add(tuple(round(edge / size) for edge in (x0, top, x1, foot)))
                    self.assertEqual(boxes, patches_said(saved))
                    self.assertEqual(len(read.areas), len(boxes))

    def test_patches_as_strokes_keep_inside(self) -> None:
        for called, saved in foils_saved():
            table, size = tables.table_of(saved), 250_000
            for name, how in (("gcode", sheets.FILLED), ("csv", sheets.OUTLINED), ("gerber", sheets.OUTLINED)):
                with self.subTest(called, format=name, patches=how):
                    foil = sheets.Foil(0, called, table, size)
                    if has_narrow(table):
                        with self.assertRaisesRegex(sheets.NotPlotted, "narrower than the pen"):
                            formats.plot_of(called, [foil], sheets.Manner(patches=how), name)
                        continue
                    plot = formats.plot_of(called, [foil], sheets.Manner(patches=how), name)
                    read = plot_readers.READERS[name](plot.content.decode("ascii"))
                    drawn = [stroke._replace(net=1) for stroke in read.strokes if stroke.net == 0]
                    legs = legs_read(plot_readers.Read(drawn, []), size, table.height * size, (0, 0), name)
                    inked = {point for leg in legs for point in square(leg[1:], table.half)}
                    within = filled_by(table)
                    edge = {point for patch in table.patches for point in edge_of(patch)}
                    self.assertEqual(inked & within, inked)
                    self.assertEqual((within if how == sheets.FILLED else edge) - inked, set())


def points_in(box: Tuple[int, ...]) -> Set[Point]:
    """The points of a box."""
    x0, y0, x1, y1 = box
    return {(x, y) for x in range(x0, x1) for y in range(y0, y1)}


def filled_by(table: tables.Table) -> Set[Point]:
    """The points of all patches."""
    return {point for patch in table.patches for point in points_in(patch)}


def has_narrow(table: tables.Table) -> bool:
    """Whether a patch is narrower than the pen."""
    return any(min(x1 - x0, y1 - y0) < 2 * table.half + 1 for x0, y0, x1, y1 in table.patches)


def edge_of(box: Tuple[int, ...]) -> Set[Point]:
    """The points of a box that are at its edge."""
    x0, y0, x1, y1 = box
    return points_in(box) - points_in((x0 + 1, y0 + 1, x1 - 1, y1 - 1))


def square(box: Tuple[int, ...], half: int) -> Set[Point]:
    """The points that a square pen inks along a leg."""
    x0, y0, x1, y1 = box
    return points_in((x0 - half, y0 - half, x1 + half, y1 + half))


def on_foil(points: Set[Point], table: tables.Table) -> Set[Point]:
    """Those of some points that are on a foil."""
    return points & points_in((0, 0, table.width, table.height))


def ours(saved: bytes) -> Set[Point]:
    """The points of a saved foil that are inked in the desk's picture of it."""
    made = textform.show(saved)
    job = textform.read(made).job
    foil = foils.foil_of(lines.run_of(job, program.run(given.BUILT, job)))
    root = ET.fromstring(picture.picture(foil, "foil", False, {}))
    boxes = [tuple(map(int, numbers)) for path in root.iter("{http://www.w3.org/2000/svg}path")
             for numbers in re.findall(r"M(-?\d+) (-?\d+)H(-?\d+)V(-?\d+)H", path.get("d", ""))]
    return on_foil({point for box in boxes for point in points_in(box)}, tables.table_of(saved))


def by_round_pen(legs: List[Tuple[int, ...]], half: int) -> Tuple[Set[Point], Set[Point]]:
    """The points whose middles a round pen inks, and those that are too near its edge for a bitmap to say."""
    inked, near = set(), set()
    for _, x0, y0, x1, y1 in legs:
        for x, y in square((x0, y0, x1, y1), half):
            away = max(x0 - x, x - x1 + 1, 0) ** 2 + max(y0 - y, y - y1 + 1, 0) ** 2
            if abs(away ** 0.5 - half - 0.5) < 0.25:
                near.add((x, y))
            elif away < (half + 0.5) ** 2:
                inked.add((x, y))
    return inked, near - inked


@given.with_program
class ByOthers(unittest.TestCase):
    """The pictures that hp2xx and gerbv make of a plot file cover the points that the desk's picture inks."""

    def setUp(self) -> None:
        folder = tempfile.TemporaryDirectory()
        self.addCleanup(folder.cleanup)
        self.folder = pathlib.Path(folder.name)

    def foils(self) -> List[Tuple[str, bytes, tables.Table]]:
        """Foils to be drawn: samples, among them one with a wide pen, and random ones."""
        names = ("document-01", "reader-keys", "wide-pen", "window", "refusals")
        made = [(name, saved_of(given.text_of(name))) for name in names]
        made += [(f"seed {at}", random_saved(at)) for at in range(8)]
        return [(called, saved, tables.table_of(saved)) for called, saved in made if legs_said(saved)]

    def plot(self, called: str, table: tables.Table, name: str, patches: str) -> pathlib.Path:
        """A plot file with points of half a millimetre."""
        path = self.folder / ("foil" + formats.FORMATS[name].ending)
        foil = sheets.Foil(0, called, table, HALF_MM)
        path.write_bytes(formats.plot_of(called, [foil], sheets.Manner(patches), name).content)
        return path

    def run_other(self, *words: object) -> None:
        """Runs a program of others."""
        subprocess.run([str(word) for word in words], cwd=self.folder, stdin=subprocess.DEVNULL, check=True,
                       stdout=subprocess.DEVNULL, stderr=subprocess.DEVNULL, timeout=60)

    def inked(self, bitmap: plot_readers.Bitmap, table: tables.Table, pixels: int, corner: Point = (0, 0)
              ) -> Set[Point]:
        """The points of a foil whose middles are inked in a bitmap, by the pixels of a point, and its corner there."""
        left, top = corner[0] + pixels // 2, corner[1] + pixels // 2
        return {(x, y) for x in range(table.width) for y in range(table.height)
                if bitmap.inked(left + pixels * x, top + pixels * y)}

    def by_gerbv(self, path: pathlib.Path, across: int, down: int) -> plot_readers.Bitmap:
        """The picture that gerbv makes of a sheet of so many points."""
        drawn, size = self.folder / "drawn.png", (across * GERBV_PIXELS, down * GERBV_PIXELS)
        self.run_other("gerbv", "-x", "png", "-D", GERBV_DPI, "-B", 0, "-O", "0x0", "-b", "#ffffff", "-f", "#000000",
                       "-w", "%dx%d" % size, "-o", drawn, path)
        bitmap = plot_readers.png(drawn.read_bytes())
        self.assertEqual((bitmap.wide, bitmap.high), size)
        return bitmap

    @with_gerbv
    def test_gerbv_draws_each_foil_of_a_sheet_where_its_number_says(self) -> None:
        saved = {1: random_saved(0), 6: saved_of(given.text_of("document-01")), 7: random_saved(7)}
        placed = [sheets.Foil(number, "a", tables.table_of(each), HALF_MM) for number, each in saved.items()]
        manner = sheets.Manner(pitch=(60 * HALF_MM, 52 * HALF_MM))
        path = self.folder / "sheet.gbr"
        path.write_bytes(formats.plot_of("sheet", placed, manner, "gerber").content)
        bitmap = self.by_gerbv(path, 4 * 60, 2 * 52)
        for foil, corner in zip(placed, ((60, 0), (120, 52), (180, 52))):
            pixels = (corner[0] * GERBV_PIXELS, corner[1] * GERBV_PIXELS)
            self.assertEqual(self.inked(bitmap, foil.table, GERBV_PIXELS, pixels), ours(saved[foil.number]))

    @with_gerbv
    def test_gerbv_draws_the_foil(self) -> None:
        for at, (called, saved, table) in enumerate(self.foils()):
            patches = sheets.FILLED if at % 2 else ""
            with self.subTest(called, patches=patches):
                bitmap = self.by_gerbv(self.plot(called, table, "gerber", patches), table.width, table.height)
                filled = filled_by(table) if patches else set()
                self.assertEqual(self.inked(bitmap, table, GERBV_PIXELS), ours(saved) | filled)

    @unittest.skipUnless(shutil.which("hp2xx"), "hp2xx is not installed: its pictures of HPGL files are not compared")
    def test_hp2xx_draws_the_foil(self) -> None:
        for at, (called, saved, table) in enumerate(self.foils()):
            patches = sheets.FILLED if at % 2 and not has_narrow(table) else ""
            with self.subTest(called, patches=patches):
                path, drawn = self.plot(called, table, "hpgl", patches), self.folder / "drawn.pbm"
                units = HALF_MM // 25_000
                self.run_other("hp2xx", "-q", "-t", "-d", HP2XX_DPI, "-x", 0, "-X", table.width * units, "-y", 0,
                               "-Y", table.height * units, "-m", "pbm", "-f", drawn, path)
                # hp2xx leaves half a pen's width free around the range that it is given
                margin = (2 * table.half + 1) * HP2XX_PIXELS // 2
                inked = self.inked(plot_readers.pbm(drawn.read_bytes()), table, HP2XX_PIXELS, (margin, margin))
                filled = filled_by(table) if patches else set()
                legs = legs_said(saved) if not patches else legs_read(
                    plot_readers.hpgl(path.read_text()), HALF_MM, table.height * HALF_MM, (0, 0), "hpgl")
                expected, near = by_round_pen(legs, table.half)
                self.assertEqual(inked - near, on_foil(expected, table) - near)
                self.assertEqual(inked - ours(saved) - filled, set())


if __name__ == "__main__":
    unittest.main()
