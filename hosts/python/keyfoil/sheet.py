"""A sheet of eight foils that owns its lists, and the calls on each foil."""
from __future__ import annotations

import ctypes
import operator
import pathlib
import threading
from collections.abc import Iterable, Sequence
from dataclasses import dataclass
from typing import Any, Optional, SupportsIndex, Tuple, Union

from keyfoil import limits
from keyfoil.answers import (Answer, Board, Carried, Entry, Found, Listed, Ohms, Point, Record, Refusal, Step, Strip,
                             Way, Written)
from keyfoil.library import EntryStruct, InkStruct, OldBoardStruct, SaidStruct, SheetStruct, load

STEPS = ("board", "patch", "track", "lift", "leg")

Number = SupportsIndex
Pair = Tuple[Number, Number]
Box = Tuple[Number, Number, Number, Number]
Leg = Tuple[Number, Number, Number, Number, Number]
Library = Union[ctypes.CDLL, str, pathlib.Path, None]


def number(value: Number) -> int:
    """A number of a call, which has 16 bits. What does not fit is not asked of the library, which could not be told."""
    whole = operator.index(value)
    if not 0 <= whole <= limits.MOST:
        raise ValueError(f"{whole} is not from 0 to {limits.MOST}")
    return whole


def length(value: Number) -> int:
    """A place of a file or a foil's number, which has 64 bits."""
    whole = operator.index(value)
    if not 0 <= whole < 1 << 64:
        raise ValueError(f"{whole} is not from 0 to 2 to the 64th - 1")
    return whole


def numbers(values: Iterable[Number]) -> ctypes.Array[ctypes.c_uint16]:
    """A list of numbers, to be lent."""
    whole = [number(value) for value in values]
    return (ctypes.c_uint16 * len(whole))(*whole)


def entry(values: Leg) -> EntryStruct:
    """An entry, to be lent."""
    net, x0, y0, x1, y1 = values
    return EntryStruct(number(net), number(x0), number(y0), number(x1), number(y1))


def points(lent: ctypes.Array[ctypes.c_uint16], first: int, count: int) -> Tuple[Point, ...]:
    """So many corners of a lent list, from place `first` on."""
    flat = lent[2 * first:2 * (first + count)]
    return tuple(map(Point, flat[::2], flat[1::2]))


@dataclass
class Lists:
    """What a sheet lends: the records of its foils, the table that they share, the strips of each, and corner places.
    They are the library's own: what else is written to them is answered by 13, or is another foil."""
    records: SheetStruct
    table: ctypes.Array[EntryStruct]
    strips: Tuple[ctypes.Array[ctypes.c_uint16], ...]
    corners: ctypes.Array[ctypes.c_uint16]

    @classmethod
    def made(cls) -> Lists:
        """The lists of a sheet on which no foil is begun: all zero."""
        strips = ctypes.c_uint16 * (4 * limits.STRIPS)
        return cls(SheetStruct(), (EntryStruct * limits.PLACES)(), tuple(strips() for _ in range(limits.FOILS)),
                   (ctypes.c_uint16 * (2 * limits.CORNERS))())

    def copy(self) -> Lists:
        """The same records, table and strips on other lists."""
        other = Lists.made()
        for mine, theirs in zip((self.records, self.table, *self.strips), (other.records, other.table, *other.strips)):
            ctypes.memmove(ctypes.addressof(theirs), ctypes.addressof(mine), ctypes.sizeof(mine))
        return other

    def strips_of(self, foil: int) -> ctypes.Array[ctypes.c_uint16]:
        """The strips to be lent for a foil. A number past the last foil has none, and its calls are refused by 23."""
        return self.strips[foil if foil < limits.FOILS else 0]


class Sheet:
    """Eight foils on one sheet, with all that they are lent. Sheets have nothing in common, and each may be used from
    any thread: one call on a sheet runs at a time, calls on several sheets at once; `with sheet.lock:` keeps several
    calls or readings together. A thread needs limits.STACK bytes of stack: call threading.stack_size(keyfoil.STACK)
    before it is started."""

    def __init__(self, library: Library = None) -> None:
        """`library` is what `load` gave, the path of libfoil.so, or None for the one that `load` finds."""
        self.library = library if isinstance(library, ctypes.CDLL) else load(library)
        self.lists = Lists.made()
        self.lock = threading.RLock()

    def foil(self, k: Number) -> Foil:
        """Foil k. Foils are numbered from 0 to 7: the calls of another one are refused by 23."""
        return Foil(self, length(k))

    @property
    def foils(self) -> Tuple[Foil, ...]:
        """The eight foils."""
        return tuple(self.foil(k) for k in range(limits.FOILS))

    def copy(self) -> Sheet:
        """Another sheet, as this one stands: to try a call without this one being changed."""
        with self.lock:
            other = Sheet(self.library)
            other.lists = self.lists.copy()
            return other

    @classmethod
    def carried(cls, old: OldFoil, library: Library = None) -> Tuple[Sheet, Carried]:
        """A new sheet on which foil 0 is a foil that was begun under document 01's rules, carried over; and the answer.
        Where it is refused, no foil of the sheet is begun."""
        sheet = cls(library)
        return sheet, old.carry_to(sheet)


@dataclass(frozen=True)
class OldFoil:
    """A foil that was begun under document 01's rules: its size and reach, its entries and its strips."""
    width: int
    height: int
    reach: int
    entries: Sequence[Leg]
    strips: Sequence[Box]

    def carry_to(self, sheet: Sheet) -> Carried:
        """Carries the foil over to foil 0 of a sheet on which no foil is begun: the answer."""
        table = (EntryStruct * max(limits.ENTRIES, len(self.entries)))(*map(entry, self.entries))
        strips = (ctypes.c_uint16 * (4 * max(limits.STRIPS, len(self.strips))))(
            *(number(value) for x0, y0, x1, y1 in self.strips for value in (x0, y0, x1, y1)))
        record = OldBoardStruct(number(self.width), number(self.height), number(self.reach), len(self.entries),
                                len(self.strips))
        report = (ctypes.c_uint16 * limits.REPORT)()
        with sheet.lock:
            if any(foil.begun for foil in sheet.foils):
                raise ValueError("a foil is carried over to a sheet on which no foil is begun")
            lists = sheet.lists
            said = sheet.library.foil_carry(lists.records.boards[0], lists.table, len(lists.table), table, len(table),
                                            lists.strips[0], len(lists.strips[0]), report, len(report), strips,
                                            len(strips), record)
        return Carried(Refusal(said.number), tuple(report[:said.bytes]))


class Foil:
    """A foil of a sheet: the calls on it, and what it holds."""

    def __init__(self, sheet: Sheet, k: int) -> None:
        self.sheet, self.k = sheet, k

    def _lent(self) -> Tuple[Any, ...]:
        """What every call is lent first."""
        lists = self.sheet.lists
        strips = lists.strips_of(self.k)
        return lists.records, lists.table, len(lists.table), strips, len(strips)

    def _corners(self) -> Tuple[ctypes.Array[ctypes.c_uint16], int]:
        """Corner places, enough for a lay."""
        return self.sheet.lists.corners, len(self.sheet.lists.corners)

    # what it holds

    @property
    def board(self) -> Board:
        """The foil's record."""
        if self.k >= limits.FOILS:
            return Board(0, 0, 0, 0, 0, 0)
        board = self.sheet.lists.records.boards[self.k]
        return Board(*(getattr(board, name) for name in Board._fields))

    @property
    def begun(self) -> bool:
        """Whether the foil is begun."""
        return self.board.width > 0

    @property
    def entries(self) -> Tuple[Entry, ...]:
        """The foil's entries, in the table's order: patches (net 0) and legs."""
        with self.sheet.lock:
            lists = self.sheet.lists
            start = sum(foil.board.entries for foil in self.sheet.foils[:self.k])
            return tuple(Entry(e.net, e.x0, e.y0, e.x1, e.y1) for e in lists.table[start:start + self.board.entries])

    @property
    def strips(self) -> Tuple[Strip, ...]:
        """The foil's strips: its free points, by y0 and then x0."""
        with self.sheet.lock:
            flat = self.sheet.lists.strips_of(self.k)[:4 * self.board.strips]
            return tuple(map(Strip, flat[::4], flat[1::4], flat[2::4], flat[3::4]))

    @property
    def nets(self) -> Tuple[int, ...]:
        """The nets that are on the foil, rising."""
        return tuple(sorted({e.net for e in self.entries} - {0}))

    # the calls that change it

    def new(self, width: Number, height: Number, half: Number = 0, gap: Number = 0) -> Answer:
        """Begins the foil, with a pen of this half width and gap."""
        return self._answer("foil_new_foil", width, height, half, gap)

    def draw(self, x0: Number, y0: Number, x1: Number, y1: Number) -> Answer:
        """Draws a patch."""
        return self._answer("foil_draw", x0, y0, x1, y1)

    def lay(self, net: Number, start: Pair, end: Pair) -> Way:
        """Lays a track of the net from a point to another: a Way."""
        (sx, sy), (tx, ty) = start, end
        return self._way("foil_lay", net, sx, sy, tx, ty)

    def lay_list(self, wishes: Iterable[Tuple[Number, Pair, Pair]]) -> Listed:
        """Lays the nets of a list, each with its start and end, one after the other: the answer to each."""
        flat = numbers(value for net, (sx, sy), (tx, ty) in wishes for value in (net, sx, sy, tx, ty))
        nets = len(flat) // 5
        answers = (ctypes.c_uint16 * (3 * nets))()
        # a longer list is refused
        corners = (ctypes.c_uint16 * (2 * limits.CORNERS * min(nets, limits.WISHES)))()
        with self.sheet.lock:
            said = self.sheet.library.foil_lay_list(*self._lent(), corners, len(corners), answers, len(answers), flat,
                                                    len(flat), self.k)
        if said.number:
            return Listed(Refusal(said.number))
        ways, first = [], 0
        for refusal, count, bends in zip(answers[::3], answers[1::3], answers[2::3]):
            ways.append(Way(Refusal(refusal), points(corners, first, count), bends))
            first += count
        return Listed(Refusal.ACCEPTED, tuple(ways))

    def join(self, net: Number, point: Pair) -> Way:
        """Joins a point to the net: a Way."""
        x, y = point
        return self._way("foil_join", net, x, y)

    def book(self, net: Number, corners: Iterable[Pair]) -> Way:
        """Books a drawing, the corners of a way, as a track of the net: a Way."""
        drawn = tuple(Point(number(x), number(y)) for x, y in corners)
        lent = numbers(value for corner in drawn for value in corner)
        with self.sheet.lock:
            said = self.sheet.library.foil_book(*self._lent(), lent, len(lent), self.k, number(net))
        return Way(Refusal(said.number), drawn[:said.corners], said.bends)

    def lift(self, net: Number) -> Answer:
        """Lifts a net."""
        return self._answer("foil_lift", net)

    def put_leg(self, net: Number, x0: Number, y0: Number, x1: Number, y1: Number) -> Answer:
        """Puts a leg as it was booked."""
        with self.sheet.lock:
            said = self.sheet.library.foil_put_leg(*self._lent(), self.k, entry((net, x0, y0, x1, y1)))
        return Answer(Refusal(said.number))

    def run_record(self, job: bytes, at: Number = 0) -> Record:
        """Runs the record that begins at a place of a job file's bytes: a Record."""
        job = bytes(job)
        with self.sheet.lock:
            corners = self.sheet.lists.corners
            said = self.sheet.library.foil_run_record(*self._lent(), *self._corners(), job, len(job), self.k,
                                                      length(at))
            steps = []
            for word in STEPS:
                step = getattr(said, word)
                if step.ran and word == "track":
                    steps.append(Step(word, way_of(step.said, corners)))
                elif step.ran:
                    steps.append(Step(word, Answer(Refusal(step.said.number))))
        return Record(Refusal(said.number), tuple(steps), said.end, said.next if said.more else None)

    def run_job(self, job: bytes) -> Tuple[Record, ...]:
        """Runs a job file from its first record on, which begins the foil: the records, the last being the end mark or
        what ended the job."""
        job, records = bytes(job), list[Record]()
        at: Optional[int] = 0
        while at is not None:
            records.append(self.run_record(job, at))
            at = records[-1].next
        return tuple(records)

    # the calls that only read it

    def find(self, start: Pair, end: Pair) -> Way:
        """The track that a lay from a point to another would lay: a Way."""
        (sx, sy), (tx, ty) = start, end
        return self._way("foil_find", sx, sy, tx, ty)

    def look_up(self, point: Pair) -> Found:
        """The strip that holds a point: Found."""
        x, y = point
        with self.sheet.lock:
            said = self.sheet.library.foil_look_up(*self._lent(), self.k, number(x), number(y))
            if said.number:
                return Found(Refusal(said.number))
            flat = self.sheet.lists.strips_of(self.k)[4 * said.place:4 * said.place + 4]
        return Found(Refusal.ACCEPTED, said.place, Strip(*flat))

    def save(self) -> Written:
        """The foil as a job file: Written."""
        return self._written("foil_save", limits.FILE_BYTES)

    def slip(self) -> Written:
        """The packer's slip: Written, a line of 33 bytes for each net."""
        return self._written("foil_slip", limits.SLIP_BYTES)

    def ohms(self, net: Number, ink: Tuple[float, float, float]) -> Ohms:
        """The resistance of a net, by three figures of the ink: Ohms."""
        sheet, width, bend = ink
        with self.sheet.lock:
            said = self.sheet.library.foil_ohms(*self._lent(), self.k, number(net), InkStruct(sheet, width, bend))
        return Ohms(Refusal(said.number), None if said.number else said.ohms)

    # how they are made

    def _answer(self, call: str, *values: Number) -> Answer:
        """Makes a call that answers nothing but its refusal."""
        whole = [number(value) for value in values]
        with self.sheet.lock:
            return Answer(Refusal(getattr(self.sheet.library, call)(*self._lent(), self.k, *whole).number))

    def _way(self, call: str, *values: Number) -> Way:
        """Makes a call that answers a way."""
        whole = [number(value) for value in values]
        with self.sheet.lock:
            said = getattr(self.sheet.library, call)(*self._lent(), *self._corners(), self.k, *whole)
            return way_of(said, self.sheet.lists.corners)

    def _written(self, call: str, most: int) -> Written:
        """Makes a call that writes at most so many bytes."""
        data = (ctypes.c_uint8 * most)()
        with self.sheet.lock:
            said = getattr(self.sheet.library, call)(*self._lent(), data, most, self.k)
        return Written(Refusal(said.number), bytes(data[:said.bytes]))


def way_of(said: SaidStruct, corners: ctypes.Array[ctypes.c_uint16]) -> Way:
    """A way by the numbers of its corners and bends, which stands at the front of a lent list."""
    return Way(Refusal(said.number), points(corners, 0, said.corners), said.bends)
