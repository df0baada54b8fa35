"""Keys and pins from a CSV: a line each, `name,x0,y0,x1,y1` or `name,x,y`. A first line that has these words is a head.
Semicolons or tabs may part the values; blank lines are passed over."""
import csv
import pathlib

from desk import textform
from desk.planning import grammar
from desk.planning.grammar import Import, Token

COLUMNS = {"keys": ["name", "x0", "y0", "x1", "y1"], "pins": ["name", "x", "y"]}
# how many bytes are read at most, and how many lines are told that cannot be read
MOST, TOLD = 1_000_000, 5


def lines_of(said: Import, folder: pathlib.Path) -> list[str]:
    """The lines of a text that a CSV stands for; a ValueError says what cannot be read of it."""
    try:
        with open(folder / said.file, "rb") as file:
            content = file.read(MOST + 1)
    except (OSError, ValueError) as fault:
        raise ValueError(f"{textform.seen(said.file)} cannot be read: {getattr(fault, 'strerror', None) or fault}")
    if len(content) > MOST:
        raise ValueError(f"{said.file} has more than {MOST} bytes, and no foil has so many {said.word}")
    try:
        rows = textform.lines_of(content)
    except textform.Unreadable as fault:
        raise ValueError(f"{said.file}, {fault}")
    made, faults = [], []
    for count, row in enumerate(rows, 1):
        try:
            made += [line_of(said.word, values_of(row))] if row.strip() and not is_head(said.word, row) else []
        except ValueError as fault:
            faults.append(f"{said.file}, line {count}: {fault}")
    if faults:
        more = [f"and {len(faults) - TOLD} more lines"] if len(faults) > TOLD else []
        raise ValueError("; ".join(faults[:TOLD] + more))
    return made


def values_of(row: str) -> list[str]:
    """The values of a line."""
    parts = next((sign for sign in ",;\t" if sign in row), ",")
    try:
        return [" ".join(value.split()) for value in next(csv.reader([row], delimiter=parts, strict=True))]
    except csv.Error as fault:
        raise ValueError(f"it is no line of values: {fault}")


def is_head(word: str, row: str) -> bool:
    """Whether a line is the head."""
    return [value.lower() for value in values_of(row)] == COLUMNS[word]


def line_of(word: str, values: list[str]) -> str:
    """A key or a pin as a line of a text."""
    if len(values) != len(COLUMNS[word]):
        raise ValueError(f"values: {len(values)}, not {len(COLUMNS[word])}: {','.join(COLUMNS[word])}")
    name, *numbers = grammar.name_of(Token(values[0], True)), *(grammar.number(Token(v, False)) for v in values[1:])
    if word == "keys":
        x0, y0, x1, y1 = numbers
        return grammar.key_line(grammar.Key(name, (x0, y0, x1, y1)))
    x, y = numbers
    return grammar.pin_line(name, (x, y))
