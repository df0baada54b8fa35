"""The words of a command: its parser, the name that it is called by, and numbers that are not whole."""
import argparse
import math
import shutil
import textwrap

from desk import console, program, statuses


def called(name):
    """How a command is called: by its path in a clone, by its name where it is installed."""
    return name if program.INSTALLED else "./" + name


class Parser(argparse.ArgumentParser):
    """A parser. What it does not understand ends the command by a status of its own, and its help is an answer."""

    def __init__(self, name, about, **how):
        parts = about.replace("./foil", called("foil")).split("\n\n")
        wide = min(shutil.get_terminal_size().columns, console.WIDTH) - 2
        shown = [part if part.startswith(" ") else textwrap.fill(part, wide) for part in parts]
        super().__init__(called(name), description="\n\n".join(shown), allow_abbrev=False,
                         formatter_class=argparse.RawDescriptionHelpFormatter, **how)

    def add_source(self):
        """The job that the command is about."""
        self.add_argument("file", metavar="FILE", nargs="?",
                          help="a text or a job file; where it is left out or `-`: standard input")

    def error(self, message):
        raise statuses.Misused("%s: %s\n%s --help says how it is used" % (self.prog, message, self.prog))

    def print_help(self, file=None):
        console.put(self.format_help())


def figure(word):
    """A number with or without decimals."""
    if "," in word:
        raise argparse.ArgumentTypeError("`%s` has a comma: write decimals after a point, as in 0.5" % word)
    try:
        return float("-" if "_" in word else word)
    except ValueError:
        raise argparse.ArgumentTypeError("`%s` is no number" % word)


def limit(word):
    """A number that others can be above."""
    number = figure(word)
    if not 0 <= number < math.inf:
        raise argparse.ArgumentTypeError("`%s` is no limit: it is 0 or more" % word)
    return number
