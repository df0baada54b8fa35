"""Lines, names and ink figures of a text: what a click writes into it. A line is only ever put in, taken out, or
changed in the step or the name that is meant; all else stays as it was typed."""
from typing import Callable, List, Optional

from desk import job as jobs, names, textform
from desk.remarks import ink_of, inked, joined, lines_of

# how a new foil's text stands
EMPTY = "%s\nend\n"


class Unchangeable(Exception):
    """A text that a click cannot change: why."""


def parted(line):
    """A line in its steps and its remark with the blanks before it."""
    step, mark, remark = line.partition("#")
    return step.rstrip(), line[len(step.rstrip()):] if mark else ""


def appended(text, new):
    """A text with lines more, before its end."""
    lines, read = lines_of(text), textform.read(text).lines
    if not read or read[-1].said != "end":
        raise Unchangeable("its last line is not `end`")
    at = read[-1].number - 1
    return joined(lines[:at] + list(new) + lines[at:])


def ended(text: str) -> str:
    """A text with a last line `end`."""
    return joined(lines_of(text) + ["end"])


def step_line(word, numbers, name=""):
    """A step as a line, with a name in its remark."""
    said = textform.step_text(jobs.Step(word, tuple(numbers)))
    called = good_name(name)
    return "%s  # %s: %s" % (said, "key" if word == "patch" else "net", called) if called else said


def good_name(name):
    """A name as a remark can hold it: no line feed, no semicolon."""
    return names.plain(str(name or "").replace(";", ","))


def board_line(width, height, half, gap):
    """A board as a line: by its reach where the pen is one point wide."""
    if half:
        return "board %d %d pen %d %d" % (width, height, half, gap)
    return "board %d %d %d" % (width, height, gap)


def with_steps(line: str, change: Callable[[List[str]], Optional[List[str]]]) -> Optional[str]:
    """A line whose steps are changed one by one: `change` gives each anew by its words, or none to take it out. None
    where no step is left."""
    said, remark = parted(line)
    steps = [textform.in_small(part).split() for part in said.split(",")]
    kept = [new for new in map(change, steps) if new]
    if not kept:
        return None
    return line if kept == steps else ", ".join(" ".join(step) for step in kept) + remark


def changed(text, changes):
    """A text with lines changed: by number what comes in its stead, a line, a list of lines or none."""
    made = []
    for number, line in enumerate(lines_of(text), 1):
        new = changes.get(number, line)
        made += new if isinstance(new, list) else [] if new is None else [new]
    return joined(made)


def reboarded(text, line_number, board):
    """A text with another board on the line that has it."""
    line = lines_of(text)[line_number - 1]
    new = with_steps(line, lambda words: board.split() if words[0] == "board" else words)
    return changed(text, {line_number: new})


def named(line, word, name):
    """A line whose remark gives a name, or none where the name is empty; what else the remark says stays."""
    said, remark = parted(line)
    parts = [part.strip() for part in remark.partition("#")[2].split(";")]
    kept = [part for part in parts if part and not part.startswith(word + ":")]
    called = good_name(name)
    said_of = ["%s: %s" % (word, called)] if called else []
    shown = "; ".join(said_of + kept)
    return "%s  # %s" % (said, shown) if shown else said
