"""What the calls answer. A refusal is a number with a name, and ACCEPTED is none; what else an answer holds is empty, 0
or None where it is refused."""
import enum
from dataclasses import dataclass
from typing import NamedTuple, Optional, Tuple


class Refusal(enum.IntEnum):
    """The numbers of the refusals, as README's table has them in words."""
    ACCEPTED = 0
    BAD_SIZE = 1
    BAD_REACH = 2
    BAD_SHAPE = 3
    BAD_NET = 4
    NET_ON_FOIL = 5
    NET_NOT_ON_FOIL = 6
    OFF_FOIL = 7
    NOT_FREE = 8
    NO_PATH = 9
    TABLE_FULL = 10
    TOO_MANY_STRIPS = 11
    LENT_TOO_LITTLE = 12
    BROKEN_STATE = 13
    FILE_CUT_SHORT = 14
    UNKNOWN_BIT = 15
    BOARD_MISPLACED = 16
    BYTES_AFTER_END = 17
    FILE_TOO_LONG = 18
    NOT_A_WAY = 19
    BAD_PEN = 20
    CROSSED = 21
    BAD_INK = 22
    NO_SUCH_FOIL = 23


class Point(NamedTuple):
    """A point of a foil, or a corner of a track."""
    x: int
    y: int


class Strip(NamedTuple):
    """Free points: x0 <= x < x1 and y0 <= y < y1."""
    x0: int
    y0: int
    x1: int
    y1: int


class Entry(NamedTuple):
    """An entry of the table: a patch (net 0) or a leg of a net, with x0 <= x < x1 and y0 <= y < y1."""
    net: int
    x0: int
    y0: int
    x1: int
    y1: int


class Board(NamedTuple):
    """A foil's record: its size, its pen, and how many entries and strips it has. All zero where it is not begun."""
    width: int
    height: int
    half: int
    gap: int
    entries: int
    strips: int


class Wish(NamedTuple):
    """A net of a list, to be laid from a point to another."""
    net: int
    start: Tuple[int, int]
    end: Tuple[int, int]


class Ink(NamedTuple):
    """The ink: ohms a square, the width of a track in points, squares counted for a bend."""
    sheet: float
    width: float
    bend: float


@dataclass(frozen=True)
class Answer:
    """What a call answers: accepted, or the refusal."""
    refusal: Refusal

    @property
    def accepted(self) -> bool:
        return self.refusal == Refusal.ACCEPTED


@dataclass(frozen=True)
class Way(Answer):
    """After a lay, a join, a find or a booking: the corners of the track, and how many bends it has."""
    corners: Tuple[Point, ...] = ()
    bends: int = 0


@dataclass(frozen=True)
class Listed(Answer):
    """After a list of nets: the answer to each. Refused are lists as a whole."""
    nets: Tuple[Way, ...] = ()


@dataclass(frozen=True)
class Found(Answer):
    """After a look up: the strip that holds the point, and its place among the strips of the foil."""
    place: Optional[int] = None
    strip: Optional[Strip] = None


@dataclass(frozen=True)
class Written(Answer):
    """After a save or a slip: the bytes."""
    data: bytes = b""


@dataclass(frozen=True)
class Ohms(Answer):
    """After ohms: the resistance."""
    ohms: Optional[float] = None


@dataclass(frozen=True)
class Carried(Answer):
    """After a carry: the nets that were lifted, rising."""
    lifted: Tuple[int, ...] = ()


@dataclass(frozen=True)
class Step:
    """A step of a record that was run: board, patch, track, lift or leg, and its answer, a Way for a track."""
    word: str
    answer: Answer


@dataclass(frozen=True)
class Record(Answer):
    """After a record: the steps that were run, in order; whether it was the end mark; and the place of the next record,
    None where the job has ended. Refused are records as a whole."""
    steps: Tuple[Step, ...] = ()
    end: bool = False
    next: Optional[int] = None
