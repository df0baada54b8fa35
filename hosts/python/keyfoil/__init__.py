"""The proved router for key foils, for programs in Python: standard library only, over libfoil.so by ctypes.

    import keyfoil

    foil = keyfoil.Sheet().foil(0)
    foil.new(6, 4)
    foil.draw(2, 0, 3, 3)
    way = foil.lay(5, (0, 0), (4, 0))
    if way.accepted:
        print(way.bends, way.corners)
    else:
        print(int(way.refusal), way.refusal.name)
    print(foil.entries, foil.strips)

hosts/build makes libfoil.so; FOIL_LIBRARY, or the argument of Sheet, names another one. Before a thread that makes
calls is started: threading.stack_size(keyfoil.STACK). docs/HOST.md has the rest."""
from keyfoil.answers import (Answer, Board, Carried, Entry, Found, Ink, Listed, Ohms, Point, Record, Refusal, Step,
                             Strip, Way, Wish, Written)
from keyfoil.library import NoLibrary, load
from keyfoil.limits import CORNERS, ENTRIES, FOILS, PLACES, STACK, STRIPS, SURE, WISHES
from keyfoil.sheet import Foil, OldFoil, Sheet

__all__ = [
    "Answer", "Board", "CORNERS", "Carried", "ENTRIES", "Entry", "FOILS", "Foil", "Found", "Ink", "Listed",
    "NoLibrary", "Ohms", "OldFoil", "PLACES", "Point", "Record", "Refusal", "STACK", "STRIPS", "SURE", "Sheet", "Step",
    "Strip", "WISHES", "Way", "Wish", "Written", "load",
]
