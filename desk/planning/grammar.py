"""The lines of a text that name ends.

    key NAME X0 Y0 X1 Y1                          a patch with its name
    pin NAME X Y                                  a point at which something outside is met
    pins NAME FIRST..LAST at X,Y step DX,DY       several: NAME is put before each number
    connect NET END END                           a track that is wanted; an END is a key, a pin, or X,Y
    keys from FILE, pins from FILE                keys or pins from a CSV beside the text

Each stands on a line of its own. A name with blanks stands in quotes. What follows a # is a remark."""
import re
from typing import NamedTuple, Optional, Union

from desk import names, textform
from desk.planning.ends import Box, Point, at

FORMS = {
    "key": "key NAME X0 Y0 X1 Y1",
    "pin": "pin NAME X Y",
    "pins": "pins NAME FIRST..LAST at X,Y step DX,DY, or pins from FILE",
    "keys": "keys from FILE",
    "connect": "connect NET END END",
}
# a quoted name, a comma with numbers on its sides, or a word; then the remark
TOKEN = re.compile(r'\s*(?:["\u201c\u201d\u201e]([^"\u201c\u201d\u201e]*)["\u201c\u201d\u201e]|'
                   r'(-?\d+\s*,\s*-?\d+(?![^\s#]))|([^\s"\u201c\u201d\u201e#]+))')
POINT = re.compile(r"(-?\d+)\s*,\s*(-?\d+)")
# how many pins a line gives at most: a foil has no more entries
MOST_PINS = 128


class Token(NamedTuple):
    """A word of a line, and whether it stood in quotes."""
    text: str
    quoted: bool


class Key(NamedTuple):
    """A key: a patch with its name."""
    name: str
    box: Box


class Pins(NamedTuple):
    """Pins: names and points."""
    pins: tuple[tuple[str, Point], ...]


class Connect(NamedTuple):
    """A track that is wanted: its net, and its ends, by name or as points."""
    net: int
    ends: tuple[Union[str, Point], ...]


class Import(NamedTuple):
    """Keys or pins from a file."""
    word: str
    file: str


Said = Union[Key, Pins, Connect, Import]


def word_of(line: str) -> Optional[str]:
    """The word that a line of this grammar begins with; none for other lines."""
    found = re.match(r"\s*([A-Za-z]+)(?![^\s\"\u201c\u201d\u201e#])", line)
    return found[1].lower() if found and found[1].lower() in FORMS else None


def parted(line: str) -> tuple[list[Token], str]:
    """The words of a line, and its remark."""
    tokens, place = [], 0
    while True:
        found = TOKEN.match(line, place)
        if not found:
            break
        quoted, point, bare = found.groups()
        tokens.append(Token(quoted, True) if quoted is not None else
                      Token("".join(point.split()) if point else bare, False))
        place = found.end()
    rest = line[place:].strip()
    if rest and not rest.startswith("#"):
        raise ValueError("a quote that is not closed: a name stands between two of them")
    return tokens, rest[1:].strip()


def said_of(line: str) -> Said:
    """What a line of this grammar says; a ValueError says what is wrong with it."""
    (first, *rest), _ = parted(line)
    word = first.text.lower()
    for token in rest:
        if not token.quoted and (token.text.startswith(",") or token.text.endswith(",")):
            raise ValueError(f"`{word}` stands on a line of its own, with no comma but in a point X,Y: {FORMS[word]}")
    if word == "keys" or word == "pins" and [token.text.lower() for token in rest[:1]] == ["from"]:
        return Import(word, file_of(rest, FORMS[word]))
    if word == "key":
        name, *numbers = counted(word, rest, 5)
        x0, y0, x1, y1 = (number(token) for token in numbers)
        return Key(name_of(name), (x0, y0, x1, y1))
    if word == "pin":
        name, *numbers = split_points(word, rest, 3)
        x, y = (number(token) for token in numbers)
        return Pins(((name_of(name), (x, y)),))
    if word == "connect":
        net, *ends = counted(word, rest, 3)
        return Connect(number(net), tuple(end_of(token) for token in ends))
    return row_of_pins(rest)


def file_of(tokens: list[Token], form: str) -> str:
    """The file after `from`."""
    if len(tokens) != 2 or tokens[0].text.lower() != "from":
        raise ValueError(f"the name of one file is wanted, in quotes where it has blanks: {form}")
    return tokens[1].text


def counted(word: str, tokens: list[Token], many: int) -> list[Token]:
    """Words, where there are so many of them."""
    if len(tokens) != many:
        raise ValueError(f"words after `{word}`: {len(tokens)}, not {many}: {FORMS[word]}; "
                         "a name with blanks stands in quotes")
    return tokens


def split_points(word: str, tokens: list[Token], many: int) -> list[Token]:
    """Words, where there are so many of them; X,Y counts as two."""
    parts = [Token(part, token.quoted) for token in tokens
             for part in (token.text.split(",") if not token.quoted and POINT.fullmatch(token.text) else [token.text])]
    return counted(word, parts, many)


def number(token: Token) -> int:
    """A number of 16 bits."""
    return int(textform.number_of(token.text))


def name_of(token: Token) -> str:
    """A name as it is kept: printed letters, single blanks, none of the signs that part names from other things."""
    name = " ".join(token.text.split())
    if not name or name != names.plain(name):
        raise ValueError(f"`{textform.seen(token.text)}` is no name: it has 1 to {names.LONGEST} printed letters")
    if POINT.fullmatch(name) or set(name) & set('#;"'):
        raise ValueError(f"`{textform.seen(name)}` is no name: it has no #, ; or quote in it, and is no point X,Y")
    return name


def end_of(token: Token) -> Union[str, Point]:
    """An end: a point, or a name."""
    return " ".join(token.text.split()) if token.quoted or not POINT.fullmatch(token.text) else point_of(token.text)


def point_of(text: str) -> Point:
    """A point X,Y."""
    found = POINT.fullmatch(text)
    if not found:
        raise ValueError(f"`{textform.seen(text)}` is no point X,Y")
    return number(Token(found[1], False)), number(Token(found[2], False))


def row_of_pins(tokens: list[Token]) -> Pins:
    """The pins of a line `pins NAME FIRST..LAST at X,Y step DX,DY`; of one pin the step may be left out."""
    shown = [token.text.lower() for token in tokens]
    span = re.fullmatch(r"(\d{1,4})\.\.(\d{1,4})", shown[1]) if len(shown) > 1 else None
    if not span or shown[2:3] != ["at"] or len(shown) not in (4, 6) or shown[4:5] not in ([], ["step"]):
        raise ValueError(f"not understood: {FORMS['pins']}, as in pins P 1..12 at 30,119 step 3,0")
    first, last = int(span[1]), int(span[2])
    (x, y), step = point_of(shown[3]), POINT.fullmatch(shown[5]) if len(shown) == 6 else None
    if first != last and not step:
        raise ValueError("`step DX,DY` is wanted: from each pin to the next")
    if abs(first - last) >= MOST_PINS:
        raise ValueError(f"{abs(first - last) + 1} pins, and a foil has room for {MOST_PINS}")
    dx, dy = (int(step[1]), int(step[2])) if step else (0, 0)
    # quotes may hold a blank at the end, which parts the name from the number
    numbers = range(first, last + 1) if first <= last else range(first, last - 1, -1)
    points = [point_of(f"{x + k * dx},{y + k * dy}") for k in range(len(numbers))]
    return Pins(tuple((name_of(Token(f"{tokens[0].text}{many}", True)), point)
                      for many, point in zip(numbers, points)))


def quoted(name: str) -> str:
    """A name as a line has it: in quotes where it is more than a plain word."""
    return name if re.fullmatch(r"[^\s,\"\u201c\u201d\u201e#;]+", name) else f'"{name}"'


def end_text(end: Union[str, Point]) -> str:
    """An end as a line has it."""
    return quoted(end) if isinstance(end, str) else at(end)


def key_line(key: Key) -> str:
    """A key as a line."""
    return f"key {quoted(key.name)} {' '.join(map(str, key.box))}"


def pin_line(name: str, point: Point) -> str:
    """A pin as a line."""
    return f"pin {quoted(name)} {point[0]} {point[1]}"
