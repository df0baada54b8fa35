"""The bytes of a job file: its records, and the steps in them.

A record is a map byte and then the numbers of its steps, 16 bits each, low byte first, lowest bit first
(docs/JOB.md). The checks are the router's, in its order: a damaged file is read as far as the router reads it, and no
further."""
import struct
from typing import NamedTuple

# what each bit of a map stands for, and its numbers
FIELDS = (
    ("board", ("W", "H", "REACH")),
    ("patch", ("X0", "Y0", "X1", "Y1")),
    ("track", ("NET", "SX", "SY", "TX", "TY")),
    ("lift", ("NET",)),
    ("leg", ("NET", "X0", "Y0", "X1", "Y1")),
    ("pen", ("HALF", "GAP")),
)
BOARD, PEN = 1, 32
MOST_BYTES = 60_000


class Step(NamedTuple):
    """A step of a record. A board with a pen has the pen's two numbers after its own."""
    word: str
    numbers: tuple

    @property
    def net(self):
        """The net of a step that has one."""
        return self.numbers[0] if self.word in ("track", "lift", "leg") else None

    @property
    def pen(self):
        """A board's half width and gap: a board by its reach has a pen of one point, with the reach as its gap."""
        return self.numbers[3:] or (0, self.numbers[2])


class Record(NamedTuple):
    """A record from its place up to the next one. The end mark has no steps."""
    place: int
    after: int
    steps: tuple


class Reading(NamedTuple):
    """The records of a file as far as it can be read; then the place and the number of what is wrong there, or none."""
    records: list
    place: int
    number: int


def record_bytes(steps):
    """The bytes of a record of these steps, of which no two are of one bit."""
    given = {step.word: step.numbers for step in steps}
    if len(given.get("board", ())) > 3:
        given["board"], given["pen"] = given["board"][:3], given["board"][3:]
    map_byte, numbers = 0, []
    for bit, (word, _) in enumerate(FIELDS):
        if word in given:
            map_byte |= 1 << bit
            numbers += given[word]
    return struct.pack("<B%dH" % len(numbers), map_byte, *numbers)


def read(job):
    """The records of a file, and what is wrong where they end; `file_number` also looks at its length."""
    records, place = [], 0
    while True:
        number = fault_at(job, place)
        if number:
            return Reading(records, place, number)
        record = Record(place, place + size(job[place]), steps_at(job, place))
        records.append(record)
        if not record.steps:
            return Reading(records, record.after, 0)
        place = record.after


def file_number(job):
    """The number that the router gives for the file, 14 to 18, or 0."""
    return 18 if len(job) > MOST_BYTES else read(job).number


def size(map_byte):
    """How many bytes a record with this map has."""
    return 1 + sum(2 * len(names) for bit, (_, names) in enumerate(FIELDS) if map_byte >> bit & 1)


def fault_at(job, place):
    """What is wrong with the record at a place, by the router's checks in their order; 0 for nothing."""
    if place >= len(job):
        return 14
    map_byte = job[place]
    if map_byte >> len(FIELDS):
        return 15
    if bool(map_byte & BOARD) != (place == 0) or map_byte & PEN and not map_byte & BOARD:
        return 16
    if map_byte == 0:
        return 17 if place + 1 < len(job) else 0
    return 14 if place + size(map_byte) > len(job) else 0


def steps_at(job, place):
    """The steps of the whole record at a place, in the order in which they are done."""
    given, at = {}, place + 1
    for bit, (word, names) in enumerate(FIELDS):
        if job[place] >> bit & 1:
            given[word] = struct.unpack_from("<%dH" % len(names), job, at)
            at += 2 * len(names)
    if "pen" in given:
        given["board"] += given.pop("pen")
    return tuple(Step(word, numbers) for word, numbers in given.items())
