"""The files that a command writes beside its answer. They are refused before anything is run where they would be
written over something else, and written after the answer is printed, so that none is lost for them. Each is written
whole or not at all."""
import contextlib
import errno
import os
import pathlib
import secrets
import stat
from typing import NamedTuple, Optional, Union

from desk import console, statuses

# how many bytes of a file show what it is
FRONT = 60_001


class Output(NamedTuple):
    """A file to be written: its path, and what it is to be, a word of KINDS."""
    path: pathlib.Path
    kind: str


# what may be written over: a file of the same kind
KINDS = {
    "job file": lambda front: b"\0" in front,
    "picture": lambda front: front.lstrip()[:5] in (b"<svg ", b"<?xml"),
    "plot file": lambda front: front.startswith((b"IN;", b"G04 Key foil", b"<svg ", b"(Key foil", b"foil,of,net,")),
}


def refuse(outputs, given):
    """Refuses outputs that would be written over each other, over what the command is given, or over a file that is
    none of their kind."""
    taken = {place(given): given} if given else {}
    for path, kind in outputs:
        if str(path) == "-":
            raise statuses.Misused("the %s goes to a file: give it a name" % kind)
        if place(path) in taken:
            raise statuses.Misused("%s would be written over: give the %s another name" % (taken[place(path)], kind))
        taken[place(path)] = path
        if os.path.isfile(path) and not is_kind(path, kind):
            raise statuses.Misused("%s is there and is no %s: give another name, or remove it" % (path, kind))


def place(path):
    """What tells a file from others, whatever leads to it; its path where it cannot be looked at."""
    try:
        found = os.stat(path)
    except OSError:
        return os.path.realpath(path)
    return found.st_dev, found.st_ino


def is_kind(path, kind):
    """Whether a file is empty, or of a kind."""
    with open(path, "rb") as file:
        front = file.read(FRONT)
    return not front or KINDS[kind](front)


def write(path: pathlib.Path, content: bytes) -> bool:
    """Writes a file; where that fails, it is told. Whether it was written."""
    try:
        put(path, content)
    except OSError as fault:
        console.complain(f"{path}: {fault.strerror}")
        return False
    return True


def put(path: pathlib.Path, content: bytes) -> None:
    """Writes a file whole or not at all: beside its place, and once it is on the disk it takes that. A link is followed
    first. What is no file, as a terminal or a pipe, has nothing beside it and is written as it stands."""
    try:
        there = os.stat(path)
    except FileNotFoundError:
        there = None
    if there and stat.S_ISDIR(there.st_mode):
        raise IsADirectoryError(errno.EISDIR, os.strerror(errno.EISDIR), str(path))
    if there and not stat.S_ISREG(there.st_mode):
        path.write_bytes(content)
        return
    place = os.path.realpath(path)
    half = os.path.join(os.path.dirname(place), f".foil-{secrets.token_hex(4)}.new")
    try:
        put_new(half, content, there and stat.S_IMODE(there.st_mode))
        os.replace(half, place)
    except BaseException:
        with contextlib.suppress(OSError):
            os.unlink(half)
        raise


def put_new(path: Union[str, pathlib.Path], content: bytes, mode: Optional[int] = None) -> None:
    """Writes a file that is not there yet, and has it on the disk; with these rights, where they are given."""
    there = os.open(path, os.O_WRONLY | os.O_CREAT | os.O_EXCL | os.O_NOFOLLOW | os.O_CLOEXEC, 0o666)
    try:
        left = memoryview(content)
        while left:
            left = left[os.write(there, left):]
        if mode is not None:
            os.fchmod(there, mode)
        os.fsync(there)
    finally:
        os.close(there)
