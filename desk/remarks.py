"""What a text says of its order in remarks of their own: the ink's figures, and for whom the order is.

    # ink: sheet 0.5 bend 0.5 width 3 dead 50
    # order: 4711; customer: Lewes library; quantity: 12

Of several lines of a kind the first counts. They are for people and tools: no job file has them."""
import argparse
import math
import re
from typing import Dict, List, Mapping, Optional

from desk import arguments, names, ohms, textform

INK = re.compile(r"\s*#\s*ink:(.*)")
FIGURES = ("sheet", "bend", "width", "dead")
ORDER = re.compile(r"[^#]*#\s*(order:.*)")
# what a line `# order: ..` can say
PARTICULARS = ("order", "customer", "quantity")


def lines_of(text: str) -> List[str]:
    """The lines of a text, without the empty one behind the last line feed."""
    lines = textform.lines_of(text)
    return lines[:-1] if lines[-1] == "" else lines


def joined(lines: List[str]) -> str:
    """Lines as a text."""
    return "".join(line + "\n" for line in lines)


def ink_of(text: str) -> Dict[str, Optional[float]]:
    """The ink's figures that a text keeps, by name; those that are missing or cannot be read are none."""
    figures: Dict[str, Optional[float]] = dict.fromkeys(FIGURES)
    for line in lines_of(text):
        found = INK.fullmatch(line)
        if found:
            given = found[1].split()
            for word, figure in zip(given[::2], given[1::2]):
                if word in figures:
                    figures[word] = figure_of(figure)
            break
    return figures


def figure_of(word: str) -> Optional[float]:
    """A figure, or none."""
    try:
        figure = float(arguments.figure(word))
    except argparse.ArgumentTypeError:
        return None
    return figure if math.isfinite(figure) else None


def inked(text: str, figures: Mapping[str, Optional[float]], behind: bool = False) -> str:
    """A text that keeps these figures; without any, the line goes. A new line stands before all others, or on demand
    behind them, where it changes no line's number."""
    given = [(word, figures.get(word)) for word in FIGURES]
    shown = " ".join(f"{word} {ohms.plain(figure)}" for word, figure in given if figure is not None)
    lines = lines_of(text)
    at = next((at for at, line in enumerate(lines) if INK.fullmatch(line)), None)
    new = [f"# ink: {shown}"] if shown else []
    if at is None:
        return joined(lines + new if behind else new + lines)
    return joined(lines[:at] + new + lines[at + 1:])


def particulars(text: str) -> Dict[str, str]:
    """For whom the order is, by the words of PARTICULARS: those that the text gives."""
    found = next(filter(None, map(ORDER.fullmatch, lines_of(text))), None)
    parts = (part.partition(":") for part in found[1].split(";")) if found else ()
    said = {word.strip(): names.plain(value) for word, _, value in parts}
    return {word: said[word] for word in PARTICULARS if said.get(word)}
