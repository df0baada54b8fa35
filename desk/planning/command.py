"""The command ./foil-plan: a text in, the text with a plan for its tracks out."""
import argparse
import os
import pathlib
import shutil
import signal
import sys
import tempfile
from typing import Any, Optional

from desk import console, outputs, refusals, sources, statuses, textform
from desk.arguments import Parser
from desk.planning import plans
from desk.planning.given import NoFoil
from desk.planning.plans import Planned, Progress
from desk.sources import Source
from screen import library

HELP = """Plans the tracks of a text, and prints the text with the plan in it:

    %(prog)s TEXT
    %(prog)s -o NEW TEXT          writes it to a file
    %(prog)s --in-place TEXT      writes it over the text itself

`connect` lines, and `track` lines without a remark `# keep`, become tracks in an order in which all are laid, or as
many as can be; then with the fewest bends, then with the least ink. A way that no plain lay takes there stands as
`leg` lines. What is open stands last, as `connect` lines with what blocks it. Patches, saved legs and kept tracks stay
as they are.

Ctrl-C ends the search, and the best plan so far is given out. The same text gives the same plan on every machine, by
so many calls of the library (--calls). The exit status is 0 where all tracks are laid, 1 where one is open, and 2 where
the text cannot be read or leaves no foil; README has those for what goes wrong besides."""
# the largest budget that can be asked for
MOST_CALLS = 100_000_000


def main(given: Optional[list[str]] = None) -> int:
    """The command, by its words: its status."""
    return int(statuses.ended(lambda: do(given)))


def calls_of(word: str) -> int:
    """A budget of calls."""
    if not word.isascii() or not word.isdigit() or not 1 <= int(word) <= MOST_CALLS:
        raise argparse.ArgumentTypeError(f"`{word}` is no number of calls: it is from 1 to {MOST_CALLS}")
    return int(word)


def do(given: Optional[list[str]]) -> int:
    """Does what is asked: the status."""
    parser = Parser("foil-plan", HELP)
    to = parser.add_mutually_exclusive_group()
    to.add_argument("-o", metavar="NEW", dest="new", type=pathlib.Path, help="write the planned text to a file")
    to.add_argument("--in-place", action="store_true", help="write it over the text")
    parser.add_argument("--calls", metavar="N", type=calls_of, default=plans.CALLS,
                        help=f"the calls of the library that the search may take, by default {plans.CALLS}")
    parser.add_source()
    asked = parser.parse_args(given)
    source = sources.source(asked.file)
    place = place_of(asked, source)
    planned = planned_of(source, asked.calls)
    if place:
        write_whole(place, planned.text.encode())
    else:
        console.put(planned.text)
    tell(source, planned)
    return statuses.ACCEPTED if planned.is_whole else statuses.REFUSED


def place_of(asked: Any, source: Source) -> Optional[pathlib.Path]:
    """Where the planned text goes: none for standard output. Nothing but a text is written over."""
    if asked.in_place:
        if source.path is None or source.is_job:
            raise statuses.Misused("--in-place is for a text that is a file: name it")
        return pathlib.Path(os.path.realpath(source.path))
    if asked.new is None:
        return None
    if str(asked.new) == "-":
        raise statuses.Misused("the planned text goes to standard output where -o is left out")
    if source.path and outputs.place(asked.new) == outputs.place(source.path):
        raise statuses.Misused(f"{asked.new} would be written over: give another name, or --in-place")
    if asked.new.is_file() and not is_text(asked.new):
        raise statuses.Misused(f"{asked.new} is there and is no text: give another name, or remove it")
    return pathlib.Path(os.path.realpath(asked.new))


def is_text(path: pathlib.Path) -> bool:
    """Whether a file is empty, or a text."""
    try:
        return not path.stat().st_size or bool(sources.source(str(path)).reading())
    except statuses.Unread:
        return False


def write_whole(path: pathlib.Path, content: bytes) -> None:
    """Writes a file beside its place, from which it takes that: it is whole, or as it was."""
    handle, half = tempfile.mkstemp(prefix=f".{path.name}.", dir=path.parent)
    try:
        with open(handle, "wb") as file:
            file.write(content)
            file.flush()
            os.fsync(file.fileno())
        if path.exists():
            shutil.copymode(path, half)
        else:
            os.chmod(half, 0o666 & ~mask())
        os.replace(half, path)
    except BaseException:
        pathlib.Path(half).unlink(missing_ok=True)
        raise


def mask() -> int:
    """The mode bits that new files do not have."""
    kept = os.umask(0)
    os.umask(kept)
    return kept


def planned_of(source: Source, calls: int) -> Planned:
    """The plan of what was given, its progress shown. Ctrl-C ends the search; a second one ends the command."""
    source.reading()
    path = library.built()
    shown = Shown()
    text = textform.show(source.content) if source.is_job else source.content
    try:
        with shown:
            return plans.plan(text, source.folder, calls, shown.follow, shown.is_stopped, path)
    except textform.Unreadable as unreadable:
        raise source.unread(unreadable)
    except NoFoil as fault:
        says = refusals.refusal(fault.number, refusals.readme_table())
        raise statuses.Unread(f"{source.name}: there is no foil ({fault.number}): {says.says}",
                              f"what to do: {says.to_do}")


class Shown:
    """The line of progress on standard error: on a terminal one that moves, elsewhere one for each track that is
    gained. Ctrl-C is taken as a wish to stop, once."""

    def __init__(self) -> None:
        self.stopped, self.moves, self.most = False, sys.stderr.isatty(), -1

    def __enter__(self) -> None:
        self.before = signal.signal(signal.SIGINT, self.stop)

    def __exit__(self, *_: Any) -> None:
        signal.signal(signal.SIGINT, self.before)
        if self.moves:
            print("\r\033[K", end="", file=sys.stderr, flush=True)

    def stop(self, *_: Any) -> None:
        """Has the search stopped; where it is stopped already, the command."""
        if self.stopped:
            raise KeyboardInterrupt
        self.stopped = True

    def is_stopped(self) -> bool:
        """Whether the search is to stop."""
        return self.stopped

    def follow(self, progress: Progress) -> None:
        """Shows how far it is."""
        if self.moves:
            print(f"\r\033[K{progress}"[:console.width() + 3], end="", file=sys.stderr, flush=True)
        elif progress.tracks > self.most:
            console.complain(progress)
        self.most = max(self.most, progress.tracks)


def tell(source: Source, planned: Planned) -> None:
    """Says what came of a plan."""
    early = ", stopped" if planned.stopped else ""
    console.complain(f"{source.name}: {planned.said} ({planned.calls:,} calls{early})")
    if planned.by_legs:
        many = "1 track is" if planned.by_legs == 1 else f"{planned.by_legs} tracks are"
        console.complain(f"{many} given as legs: no plain lay takes that way there")
    for one in planned.open:
        console.complain(f"open{', and cannot be' if one.impossible else ''}: {one.said}: {one.why}")
    for finding in planned.findings:
        console.complain(f"to be checked: {finding.matter}: {finding.where}")
