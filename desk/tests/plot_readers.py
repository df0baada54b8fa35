"""Readers of plot files, written for the tests from what each format is, and of the bitmaps that others draw of them.
Lengths are nanometres, in the file's own axes."""
import csv
import re
import struct
import xml.etree.ElementTree as ET
import zlib
from decimal import Decimal
from typing import Callable, Dict, Iterator, List, NamedTuple, Optional, Tuple

Point = Tuple[int, int]
Box = Tuple[int, int, int, int]


class Drawn(NamedTuple):
    """A stroke: its net and its width where the file says them, its corners, and its foil where the file says it."""
    net: Optional[int]
    wide: Optional[int]
    corners: Tuple[Point, ...]
    foil: Optional[int] = None


class Read(NamedTuple):
    """What a file draws, and its areas."""
    strokes: List[Drawn]
    areas: List[Box]


def nanometres(word: str) -> int:
    """A decimal number of millimetres, which must be a whole number of nanometres."""
    made = Decimal(word) * 1_000_000
    assert made == int(made), word
    return int(made)


def hpgl(text: str) -> Read:
    """HPGL: PU and PD move the pen to absolute places."""
    strokes: List[Drawn] = []
    at, wide, line = (0, 0), None, []  # type: Point, Optional[int], List[Point]
    for instruction in text.replace("\n", "").split(";")[:-1]:
        word, numbers = instruction[:2], [number for number in instruction[2:].split(",") if number]
        assert word in ("IN", "SP", "PA", "PW", "LA", "PU", "PD"), instruction
        if word == "PW":
            wide = nanometres(numbers[0])
        elif word == "PU" and line:
            strokes.append(Drawn(None, wide, one_point(line)))
            line = []
        if word in ("PU", "PD") and numbers:
            assert len(numbers) == 2, instruction
            to = (int(numbers[0]) * 25_000, int(numbers[1]) * 25_000)
            line = (line or [at]) + [to] if word == "PD" else line
            at = to
    assert not line and text.startswith("IN;") and text.endswith("PU;\nSP0;\n")
    return Read(strokes, [])


def one_point(line: List[Point]) -> Tuple[Point, ...]:
    """A stroke that goes one unit to the right and back is one point."""
    there_and_back = len(line) == 3 and line[0] == line[2] and line[1] == (line[0][0] + 25_000, line[0][1])
    return (line[0],) if there_and_back else tuple(line)


def gerber(text: str) -> Read:
    """Gerber: D02 moves, D01 draws, D03 flashes, G36 to G37 is a region; nets are in comments."""
    strokes: List[Drawn] = []
    areas: List[Box] = []
    apertures: Dict[int, int] = {}
    wide, net, foil, line, inside = 0, 0, 0, [], False  # type: int, int, int, List[Point], bool
    rows = text.splitlines()
    assert "%FSLAX46Y46*%" in rows and "%MOMM*%" in rows and rows[-1] == "M02*"

    def close() -> None:
        if line and inside:
            xs, ys = zip(*line)
            assert line[0] == line[-1] and len(line) == 5
            areas.append((min(xs), min(ys), max(xs), max(ys)))
        elif line:
            strokes.append(Drawn(net, wide, tuple(line), foil))
        line.clear()

    for row in rows[1:]:
        defined = re.fullmatch(r"%ADD(\d+)R,([\d.]+)X\2\*%", row)
        placed = re.fullmatch(r"X(-?\d+)Y(-?\d+)D0([123])\*", row)
        chosen, of = re.fullmatch(r"D(\d+)\*", row), re.fullmatch(r"G04 foil (\d) (?:net (\d+)|patch)\*", row)
        if defined:
            apertures[int(defined[1])] = nanometres(defined[2])
        elif placed:
            if placed[3] != "1":
                close()
            line.append((int(placed[1]), int(placed[2])))
            if placed[3] == "3":
                close()
        else:
            assert chosen or of or row in ("%FSLAX46Y46*%", "%MOMM*%", "%LPD*%", "G01*", "G36*", "G37*", "M02*"), row
            close()
            inside = row == "G36*" or inside and row != "G37*"
            wide = apertures[int(chosen[1])] if chosen else wide
            foil, net = (int(of[1]), int(of[2] or 0)) if of else (foil, net)
    return Read(strokes, areas)


def svg(text: str) -> Read:
    """SVG: polylines and rectangles in a view box of millimetres."""
    root = ET.fromstring(text)
    space = "{http://www.w3.org/2000/svg}"
    assert root.get("viewBox") == f"0 0 {root.get('width', '')[:-2]} {root.get('height', '')[:-2]}"
    assert {element.tag for element in root.iter()} <= {space + tag for tag in ("svg", "g", "rect", "polyline")}
    strokes = []
    for line in root.iter(space + "polyline"):
        corners = [tuple(map(nanometres, pair.split(","))) for pair in line.get("points", "").split()]
        one = len(corners) == 2 and corners[0] == corners[1]
        strokes.append(Drawn(int(line.get("data-net", "")), nanometres(line.get("stroke-width", "")),
                             tuple((x, y) for x, y in corners[one:]), int(line.get("data-foil", ""))))
    areas = []
    for rect in root.iter(space + "rect"):
        x, y, wide, high = (nanometres(rect.get(name, "")) for name in ("x", "y", "width", "height"))
        areas.append((x, y, x + wide, y + high))
    return Read(strokes, areas)


def gcode(text: str) -> Read:
    """G-code: the pen is down at Z0; nets are in comments."""
    strokes, foil, net, wide = [], 0, 0, 0  # type: List[Drawn], int, int, int
    down, at, line = False, (0, 0), []  # type: bool, Point, List[Point]
    rows = text.splitlines()
    assert rows[1:4] == ["G21", "G90", "G0 Z2"] and rows[-1] == "M2"
    for row in rows[4:-1]:
        of, pen = re.fullmatch(r"\(foil (\d) (?:net (\d+)|patch)\)", row), re.fullmatch(r"\(pen ([\d.]+) mm\)", row)
        moved = re.fullmatch(r"G([01]) X([\d.]+) Y([\d.]+)( F\d+)?", row)
        if of:
            foil, net = int(of[1]), int(of[2] or 0)
        elif pen:
            wide = nanometres(pen[1])
        elif moved:
            assert down == (moved[1] == "1"), row
            at = (nanometres(moved[2]), nanometres(moved[3]))
            line += [at] if down else []
        elif row.startswith("G1 Z0 "):
            down, line = True, [at]
        else:
            assert row == "G0 Z2" and down, row
            strokes.append(Drawn(net, wide, tuple(line), foil))
            down = False
    assert not down
    return Read(strokes, [])


def rows(text: str) -> Read:
    """CSV: a row for each corner."""
    strokes: Dict[int, Drawn] = {}
    areas: Dict[int, List[Point]] = {}
    for row in csv.DictReader(text.splitlines()):
        number, corner = int(row["stroke"]), (nanometres(row["x_mm"]), nanometres(row["y_mm"]))
        if row["of"] == "area":
            areas.setdefault(number, []).append(corner)
            continue
        assert (row["of"] == "track") == (row["net"] != "0"), row
        drawn = strokes.get(number, Drawn(int(row["net"]), nanometres(row["pen_mm"]), (), int(row["foil"])))
        assert drawn[:2] == (int(row["net"]), nanometres(row["pen_mm"]))
        strokes[number] = drawn._replace(corners=drawn.corners + (corner,))
    return Read(list(strokes.values()), [(*first, *last) for first, last in areas.values()])


READERS = {"hpgl": hpgl, "gerber": gerber, "svg": svg, "gcode": gcode, "csv": rows}
# the formats whose y grows upwards
UPWARDS = ("hpgl", "gerber", "gcode")


class Bitmap(NamedTuple):
    """A bitmap: its size, and whether a pixel is inked."""
    wide: int
    high: int
    inked: Callable[[int, int], bool]


def pbm(content: bytes) -> Bitmap:
    """A bitmap in PBM, one bit a pixel."""
    magic, size, bits = content.split(b"\n", 2)
    wide, high = map(int, size.split())
    assert magic == b"P4"
    across = (wide + 7) // 8
    return Bitmap(wide, high, lambda x, y: bool(bits[y * across + x // 8] >> (7 - x % 8) & 1))


def png(content: bytes) -> Bitmap:
    """A bitmap in PNG with three bytes a pixel; all that is not white is inked."""
    head, packed, at = b"", b"", 8
    while at < len(content):
        long, kind = struct.unpack_from(">I4s", content, at)
        part = content[at + 8:at + 8 + long]
        head, packed = part if kind == b"IHDR" else head, packed + (part if kind == b"IDAT" else b"")
        at += 12 + long
    wide, high, depth, colours = struct.unpack_from(">IIBB", head)
    assert (depth, colours) == (8, 2)
    rows_of = list(unfiltered(zlib.decompress(packed), 3 * wide))
    return Bitmap(wide, high, lambda x, y: rows_of[y][3 * x:3 * x + 3] != b"\xff\xff\xff")


def unfiltered(data: bytes, across: int) -> Iterator[bytes]:
    """The rows of a PNG without their filters."""
    before = bytearray(across)
    for at in range(0, len(data), across + 1):
        how, row = data[at], bytearray(data[at + 1:at + 1 + across])
        for x in range(across) if how else ():
            left, above = row[x - 3] if x >= 3 else 0, before[x]
            corner = before[x - 3] if x >= 3 else 0
            row[x] = (row[x] + (left, above, (left + above) // 2, nearest(left, above, corner))[how - 1]) & 255
        yield bytes(row)
        before = row


def nearest(left: int, above: int, corner: int) -> int:
    """Paeth's choice among three neighbours."""
    guess = left + above - corner
    return min((left, above, corner), key=lambda value: abs(guess - value))
