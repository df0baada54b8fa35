"""What the tests are given: document 01's job, and the foil that it leaves."""
import pathlib

ROOT = pathlib.Path(__file__).resolve().parents[3]
HEADER = ROOT / "hosts" / "c" / "foil.h"
SAMPLES = ROOT / "samples"

JOB = bytes.fromhex("03 0600 0400 0000 0200 0000 0300 0300 04 0500 0000 0000 0400 0000 00")
ENTRIES = ((0, 2, 0, 3, 3), (5, 0, 0, 1, 4), (5, 0, 3, 5, 4), (5, 4, 0, 5, 4))
STRIPS = ((1, 0, 2, 3), (3, 0, 4, 3), (5, 0, 6, 4))
CORNERS = ((0, 0), (0, 3), (4, 3), (4, 0))


def begun(sheet, k=0):
    """Foil k of a sheet as document 01's job leaves it."""
    foil = sheet.foil(k)
    for answer in (foil.new(6, 4), foil.draw(2, 0, 3, 3), foil.lay(5, (0, 0), (4, 0))):
        assert answer.accepted
    return foil


def held(foil):
    """All that a foil holds."""
    return foil.board, foil.entries, foil.strips
