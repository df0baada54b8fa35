"""The text form of a job: a line for each record, its steps parted by commas.

    board W H REACH                 begins the foil; or with a pen of the plotter:
    board W H pen HALF GAP
    patch X0 Y0 X1 Y1
    track NET SX SY TX TY
    lift NET
    leg NET X0 Y0 X1 Y1
    end                             the end mark, on a line of its own
    bytes 04 01 00                  bytes as they stand, in hexadecimal, on a line of their own
    bytes 00 times 5                five of them

A number that is no net's may be in millimetres, `30.5mm`, where a remark says how large a point is
(desk/millimetres.py): it stands for so many points.

What follows a # is a remark, which may give names (desk/names.py); blank lines are passed over, and words may be in
capitals. The steps of a record stand in the order above, in which they are done. `read` makes the job from a text, and
`show` the text of a job. Reading what is shown gives the same bytes, whatever they are; showing what was read gives the
same text but for remarks, blanks and capitals, where the file is not at fault."""
import re
import string
from typing import List, NamedTuple, Union

from desk import job as jobs, millimetres

ORDER = [word for word, _ in jobs.FIELDS if word != "pen"]
NAMES = dict(jobs.FIELDS)
FORMS = {word: "%s %s" % (word, " ".join(NAMES[word])) for word in ORDER}
FORMS["board"] = "board W H REACH, or board W H pen HALF GAP"
LARGEST = 65_535
BYTES_A_LINE = 32
SMALL = str.maketrans(string.ascii_uppercase, string.ascii_lowercase)
# how a text begins that an editor has stored with two bytes for each letter, and what is said of one
WIDE_MARKS = (b"\xff\xfe", b"\xfe\xff")
WIDE = "this is text in UTF-16: save it as UTF-8"
# how many bytes show that a text without such a mark is stored so: no first record of a job has more
WIDE_FRONT = 64


class Unreadable(Exception):
    """What cannot be read of a text: pairs of a line's number and a message."""

    def __init__(self, faults):
        super().__init__("; ".join("line %d: %s" % fault for fault in faults))
        self.faults = faults


class Line(NamedTuple):
    """A line of a text that gives bytes: its number, what it says, the places of its bytes, and its remark."""
    number: int
    said: str
    place: int
    after: int
    remark: str = ""


class Text(NamedTuple):
    """A text that was read: the job that it makes, and its lines."""
    job: bytes
    lines: list

    def line_of(self, place):
        """The line on which the record at a place begins."""
        return next(line for line in self.lines if line.place <= place < line.after)


def read(source: Union[str, bytes], size: int = 0) -> Text:
    """The job of a text, which is given as text or as the bytes of its file. `size` is that of a point, in nanometres,
    for a text that says none."""
    made, lines, faults, all_lines = bytearray(), [], [], lines_of(source)
    ruler = millimetres.ruler(all_lines, size)
    for number, line in enumerate(all_lines, 1):
        step, _, remark = line.partition("#")
        said = " ".join(in_small(step).split())
        if said:
            try:
                given = bytes_of(said, ruler)
            except ValueError as fault:
                faults.append((number, str(fault)))
                continue
            lines.append(Line(number, said, len(made), len(made) + len(given), remark.strip()))
            made += given
    if faults:
        raise Unreadable(faults)
    return Text(bytes(made), lines)


def lines_of(source: Union[str, bytes]) -> List[str]:
    """The lines of a text, as an editor counts them."""
    return re.split("\r\n|\r|\n", decoded(source) if isinstance(source, bytes) else source)


def decoded(content: bytes) -> str:
    """The bytes of a text as a text, its lines ended by line feeds."""
    if is_wide(content):
        raise Unreadable([(1, WIDE)])
    try:
        return "\n".join(re.split("\r\n|\r|\n", content.decode("utf-8-sig")))
    except UnicodeDecodeError as fault:
        before = content[:fault.start].decode("utf-8-sig")
        told = f"a byte {content[fault.start]:02x}, which is no text in UTF-8"
        raise Unreadable([(len(lines_of(before)), told)]) from None


def is_wide(content: bytes) -> bool:
    """Whether bytes are a text in UTF-16: by its mark, or by letters that each have a byte 00 beside them. No job file
    whose board can be accepted is taken for one, since a number of its first record is small."""
    if content[:2] in WIDE_MARKS:
        return True
    front = content[:min(WIDE_FRONT, len(content) // 2 * 2)]
    return len(front) >= 8 and any(not any(front[1 - at::2]) and all(byte >= 32 or byte in b"\t\r\n"
                                                                     for byte in front[at::2]) for at in (0, 1))


def in_small(said: str) -> str:
    """A text with small letters for capitals, which mean the same in a step."""
    return said.translate(SMALL)


def bytes_of(said: str, ruler: millimetres.Ruler = millimetres.Ruler()) -> bytes:
    """The bytes of a line; a ValueError says what is wrong with it. The ruler is for numbers in millimetres."""
    word = re.match("[^ ,]*", said)[0]
    if word == "bytes":
        return plain_bytes(said)
    if word == "end":
        if said != "end":
            raise ValueError("`end` stands on a line of its own")
        return b"\0"
    numbers = re.search("[0-9]+ ?, ?[0-9]+", said)
    if numbers:
        raise ValueError("a comma between numbers, in `%s`: a comma parts steps, blanks part numbers, and a thousand "
                         "is 1000" % seen(numbers[0]))
    steps = []
    for part in said.split(","):
        step = step_of(part.split(), ruler)
        if steps and ORDER.index(step.word) <= ORDER.index(steps[-1].word):
            raise ValueError("`%s` after `%s`: give it a line of its own; on one line each step stands once, in the "
                             "order %s" % (step.word, steps[-1].word, ", ".join(ORDER)))
        steps.append(step)
    return jobs.record_bytes(steps)


def step_of(words: List[str], ruler: millimetres.Ruler = millimetres.Ruler()) -> jobs.Step:
    """A step by its word and its numbers, of which a net's is never in millimetres."""
    if not words:
        raise ValueError("no step on one side of a comma")
    word, *rest = words
    if word not in ORDER:
        raise ValueError("`%s` is none of the words %s, end, bytes" % (seen(word), ", ".join(ORDER)))
    if word == "board" and rest[2:3] == ["pen"]:
        if len(rest) != 5:
            raise ValueError("numbers after `pen`: %d, not 2: board W H pen HALF GAP" % (len(rest) - 3))
        w, h, half, gap = (points_of(n, ruler) for n in rest[:2] + rest[3:])
        return jobs.Step(word, (w, h, 0, half, gap))
    if len(rest) != len(NAMES[word]):
        raise ValueError("numbers after `%s`: %d, not %d: %s" % (word, len(rest), len(NAMES[word]), FORMS[word]))
    return jobs.Step(word, tuple(number_of(n) if name == "NET" else points_of(n, ruler)
                                 for name, n in zip(NAMES[word], rest)))


def points_of(word: str, ruler: millimetres.Ruler) -> int:
    """A number of points, which may be given in millimetres."""
    return number_of(str(ruler.points(word)) if re.fullmatch("[0-9][0-9.]*mm", word) else word)


def number_of(word: str) -> int:
    """A whole number of 16 bits, written as numbers are written."""
    if re.fullmatch("0|[1-9][0-9]{0,4}", word) and int(word) <= LARGEST:
        return int(word)
    if re.fullmatch("0[0-9]+", word):
        raise ValueError("`%s` begins with a 0: write it without" % seen(word))
    raise ValueError("`%s` is no whole number from 0 to %d" % (seen(word), LARGEST))


def seen(word):
    """A word as a message shows it."""
    printed = "".join(letter if letter.isprintable() else "?" for letter in word)
    return printed if len(printed) <= 24 else printed[:22] + ".."


def plain_bytes(said):
    """The bytes of a line `bytes ..`."""
    shown, _, times = said[len("bytes"):].partition(" times ")
    if not re.fullmatch("( ?[0-9a-fA-F]{2})+", shown):
        raise ValueError("`bytes` wants bytes of two hexadecimal digits: bytes 04 01 00, or bytes 00 times 5")
    return bytes.fromhex(shown) * (number_of(times) if times else 1)


def show(job, words=lambda number: ""):
    """The text of a job file, damaged or not. `words` gives what a remark says beside the number of what is wrong."""
    def remark(number):
        return "# file %d%s" % (number, words(number) and ": " + words(number))

    reading = jobs.read(job)
    shown = [remark(18)] if len(job) > jobs.MOST_BYTES else []
    for record in reading.records:
        shown.append(record_text(job, record))
    rest = job[reading.place:]
    if reading.number == 17:
        shown.append("end")
        rest = rest[1:]
    if reading.number and len(job) <= jobs.MOST_BYTES:
        shown.append(remark(reading.number))
    shown += rows_of(rest)
    return "".join(line + "\n" for line in shown)


def record_text(job, record):
    """A record as a line; as bytes where the form has no words for it, which is a reach beside a pen."""
    said = ", ".join(step_text(step) for step in record.steps) or "end"
    given = job[record.place:record.after]
    return said if bytes_of(said) == given else "bytes %s  # %s, with a reach that is not used" % (given.hex(" "), said)


def step_text(step):
    """A step as the form has it."""
    numbers = [str(n) for n in step.numbers]
    if len(numbers) > 3 and step.word == "board":
        numbers[2] = "pen"
    return " ".join([step.word] + numbers)


def rows_of(given):
    """Bytes as lines `bytes ..`."""
    if BYTES_A_LINE < len(given) <= LARGEST and len(set(given)) == 1:
        return ["bytes %02x times %d" % (given[0], len(given))]
    rows = [given[at:at + BYTES_A_LINE] for at in range(0, len(given), BYTES_A_LINE)]
    return ["bytes " + row.hex(" ") for row in rows]
