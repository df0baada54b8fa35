"""What the numbers of refusals say, and what to do about them. Both are those of README's table, which is read here."""
import re
from typing import NamedTuple

from desk import program

README = program.ROOT / "README.md"
HEAD = ["N", "What it says", "What to do"]


class Refusal(NamedTuple):
    """A row of the table: what the number says, and what to do."""
    says: str
    to_do: str


def table_of(readme):
    """The rows of the table in a README, by number."""
    table, inside = {}, False
    for line in readme.splitlines():
        cells = [cell.strip() for cell in line.strip().strip("|").split("|")]
        if cells == HEAD:
            inside = True
        elif inside and not line.startswith("|"):
            break
        elif inside and re.fullmatch(r"\d+(, \d+)*", cells[0]):
            for number in cells[0].split(", "):
                table[int(number)] = Refusal(*cells[1:])
    return table


def readme_table():
    """The table of the README of this repository."""
    return table_of(README.read_text(encoding="utf-8"))


def refusal(number, table):
    """The row of a number; where there is none, that is what it says."""
    return table.get(number, Refusal("README's table has no row for this number", ""))
