"""Millimetres: the size of a point, and lengths that are a whole number of points.

    # point: 0.25 mm

A text says by this remark how large a point is; of several the first counts. Lengths are whole nanometres: what is
written in decimals is kept as it stands, and nothing is rounded here."""
import re
from typing import List, NamedTuple, Optional

# the nanometres of a millimetre
MM = 1_000_000
# a point's smallest and largest size, and what its size is a multiple of: its half is then a whole number too
SMALLEST, LARGEST, STEP = 1_000, 50 * MM, 10
SAID = "0.001 to 50 mm, with at most five decimals"
NO_SIZE = "nothing says how large a point is: put a line `# point: 0.25 mm` into the text, with the size that is right"


class Ruler(NamedTuple):
    """The size of a point, or why it is not known."""
    size: int = 0
    why: str = NO_SIZE

    def points(self, word: str) -> int:
        """How many points a length as `30.5mm` has; a ValueError where it is not a whole number of them."""
        if not self.size:
            raise ValueError(f"`{word}` is in millimetres, and {self.why}")
        many, over = divmod(length(word[:-2]), self.size)
        if over:
            near = " and ".join(f"{shown(at * self.size)}mm ({at})" for at in (many, many + 1))
            raise ValueError(f"`{word}` does not fall on a point: the nearest two are {near}")
        return many


def length(word: str) -> int:
    """A length in millimetres, as nanometres; a ValueError says what is wrong with it."""
    if re.fullmatch("[0-9]*,[0-9]+", word):
        raise ValueError(f"`{word}` has a comma: write decimals after a point, as in 0.25")
    found = re.fullmatch(r"([0-9]{1,6})(?:\.([0-9]+))?", word)
    if not found:
        raise ValueError(f"`{word[:24]}` is no length in millimetres: write it as in 0.25")
    decimals = (found[2] or "").rstrip("0")
    if len(decimals) > 6:
        raise ValueError(f"`{word[:24]}` has more than six decimals")
    return int(found[1]) * MM + int(decimals.ljust(6, "0"))


def size(word: str) -> int:
    """The size of a point in millimetres, as nanometres; a ValueError says what is wrong with it."""
    made = length(word)
    if not SMALLEST <= made <= LARGEST or made % STEP:
        raise ValueError(f"`{word}` is no size of a point: {SAID}")
    return made


def shown(nanometres: int) -> str:
    """A length in millimetres, in as many decimals as it has."""
    sign, (whole, rest) = "-" if nanometres < 0 else "", divmod(abs(nanometres), MM)
    return f"{sign}{whole}.{rest:06d}".rstrip("0").rstrip(".")


def remark(lines: List[str]) -> Optional[str]:
    """What the first remark `# point: ..` of a text says of the size; none where there is no such remark."""
    for line in lines:
        for part in line.partition("#")[2].split(";"):
            if part.strip().startswith("point:"):
                return part.strip()[len("point:"):].strip()
    return None


def said(lines: List[str]) -> int:
    """The size of a point that a text says, 0 where it says none; a ValueError where that cannot be read."""
    given = remark(lines)
    if given is None:
        return 0
    found = re.fullmatch(r"(\S+?)\s*(?:mm|MM)", given)
    if not found:
        raise ValueError(f"`# point: {given[:24]}` is no size of a point: write it as `# point: 0.25 mm`")
    return size(found[1])


def ruler(lines: List[str], given: int = 0) -> Ruler:
    """The ruler of a text; by a size that was given besides, where it says none."""
    try:
        of_text = said(lines)
    except ValueError as fault:
        return Ruler(0, str(fault))
    return Ruler(of_text or given)
