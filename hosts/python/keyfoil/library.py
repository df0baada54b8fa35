"""The library: where libfoil.so is, and its calls as ctypes has them, with the structs of foil.h."""
import ctypes
import os
import pathlib
from ctypes import c_bool, c_char_p, c_double, c_size_t, c_uint8, c_uint16
from typing import Union

from keyfoil.limits import FOILS

VARIABLE = "FOIL_LIBRARY"
HERE = pathlib.Path(__file__).resolve().parent
# the folder `hosts` of a clone, and where its hosts/build puts the library
HOSTS = HERE.parent.parent
BUILT = HOSTS.parent / "target" / "hosts" / "lib" / "libfoil.so"


class NoLibrary(Exception):
    """libfoil.so cannot be found or loaded, or is another library."""


class BoardStruct(ctypes.Structure):
    """struct foil_board"""
    _fields_ = [(name, c_uint16) for name in ("width", "height", "half", "gap")] + [
        ("entries", c_size_t), ("strips", c_size_t)]


class SheetStruct(ctypes.Structure):
    """struct foil_sheet"""
    _fields_ = [("boards", BoardStruct * FOILS)]


class OldBoardStruct(ctypes.Structure):
    """struct foil_old_board"""
    _fields_ = [(name, c_uint16) for name in ("width", "height", "reach")] + [
        ("entries", c_size_t), ("strips", c_size_t)]


class EntryStruct(ctypes.Structure):
    """struct foil_entry"""
    _fields_ = [(name, c_uint16) for name in ("net", "x0", "y0", "x1", "y1")]


class SaidStruct(ctypes.Structure):
    """struct foil_said"""
    _fields_ = [("number", c_uint8)] + [(name, c_size_t) for name in ("corners", "bends", "place", "bytes")]


class StepStruct(ctypes.Structure):
    """struct foil_step"""
    _fields_ = [("ran", c_bool), ("said", SaidStruct)]


class RecordStruct(ctypes.Structure):
    """struct foil_record"""
    _fields_ = [("number", c_uint8), ("end", c_bool)] + [
        (word, StepStruct) for word in ("board", "patch", "track", "lift", "leg")] + [
        ("more", c_bool), ("next", c_size_t)]


class InkStruct(ctypes.Structure):
    """struct foil_ink"""
    _fields_ = [(name, c_double) for name in ("sheet", "width", "bend")]


class ResistanceStruct(ctypes.Structure):
    """struct foil_resistance"""
    _fields_ = [("number", c_uint8), ("ohms", c_double)]


SHEET = ctypes.POINTER(SheetStruct)
BOARD = ctypes.POINTER(BoardStruct)
# a lent list is its address and its length
TABLE = [ctypes.POINTER(EntryStruct), c_size_t]
NUMBERS = [ctypes.POINTER(c_uint16), c_size_t]
BYTES = [ctypes.POINTER(c_uint8), c_size_t]
# what every call but a carry is lent first
LENT = [SHEET, *TABLE, *NUMBERS]

# the calls: what each answers, and its parameters
CALLS = {
    "foil_new_foil": (SaidStruct, [*LENT, c_size_t, *4 * [c_uint16]]),
    "foil_draw": (SaidStruct, [*LENT, c_size_t, *4 * [c_uint16]]),
    "foil_lay": (SaidStruct, [*LENT, *NUMBERS, c_size_t, *5 * [c_uint16]]),
    "foil_lay_list": (SaidStruct, [*LENT, *NUMBERS, *NUMBERS, *NUMBERS, c_size_t]),
    "foil_join": (SaidStruct, [*LENT, *NUMBERS, c_size_t, *3 * [c_uint16]]),
    "foil_find": (SaidStruct, [*LENT, *NUMBERS, c_size_t, *4 * [c_uint16]]),
    "foil_book": (SaidStruct, [*LENT, *NUMBERS, c_size_t, c_uint16]),
    "foil_lift": (SaidStruct, [*LENT, c_size_t, c_uint16]),
    "foil_put_leg": (SaidStruct, [*LENT, c_size_t, EntryStruct]),
    "foil_look_up": (SaidStruct, [*LENT, c_size_t, *2 * [c_uint16]]),
    "foil_save": (SaidStruct, [*LENT, *BYTES, c_size_t]),
    "foil_slip": (SaidStruct, [*LENT, *BYTES, c_size_t]),
    "foil_ohms": (ResistanceStruct, [*LENT, c_size_t, c_uint16, InkStruct]),
    "foil_run_record": (RecordStruct, [*LENT, *NUMBERS, c_char_p, c_size_t, c_size_t, c_size_t]),
    "foil_carry": (SaidStruct, [BOARD, *TABLE, *TABLE, *NUMBERS, *NUMBERS, *NUMBERS, OldBoardStruct]),
}


def found(path: Union[str, pathlib.Path, None] = None) -> pathlib.Path:
    """The path of libfoil.so: the one that is given, the one that FOIL_LIBRARY names, the clone's own, or where the
    package is installed that of its prefix."""
    if path is not None:
        return pathlib.Path(path)
    if os.environ.get(VARIABLE):
        return pathlib.Path(os.environ[VARIABLE])
    # a clone has the library of its own sources or none; a package elsewhere that of the nearest folder above it
    is_clone = HOSTS.joinpath("build").is_file()
    for place in [BUILT] if is_clone else [folder / "lib" / "libfoil.so" for folder in HERE.parents]:
        if place.is_file():
            return place
    lacking = f"no {BUILT}: run hosts/build in the clone" if is_clone else (
        f"no lib/libfoil.so in a folder above {HERE}: install it again")
    raise NoLibrary(f"there is {lacking}, or name libfoil.so by {VARIABLE} or as an argument")


def load(path: Union[str, pathlib.Path, None] = None) -> ctypes.CDLL:
    """The library, its calls with the types of foil.h. Calls let other threads of Python run."""
    where = found(path)
    try:
        # an absolute path: a bare name would be looked for elsewhere
        library = ctypes.CDLL(str(where.absolute()))
        for name, (answer, parameters) in CALLS.items():
            call = getattr(library, name)
            call.restype, call.argtypes = answer, parameters
    except OSError as fault:
        raise NoLibrary(f"the library cannot be loaded: {fault}") from None
    except AttributeError as fault:
        raise NoLibrary(f"{where} is no libfoil.so, or another version: {fault}") from None
    return library
