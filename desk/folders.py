"""The folder of an order: its name, what it holds, how that differs from what is to be written, and the writing of it.

The order NAME is the folder NAME in the orders' folder, with NAME.txt and all that is made from that text for foil 0,
and with NAME-K.txt for foil K. A folder that is a link is none. Files of other names in it are left alone.

A folder is written whole or not at all. The new one is made beside the old, as `.NAME.new`: its files are written and
synced, and what else the old one holds is linked into it. Then the two change places at once, and the old one is
removed: a stop before that leaves the old order, one after it the new. Where the disk cannot exchange folders, the old
one is renamed to `.NAME.old` and the new one to NAME; a stop between these leaves both whole, and whoever comes next
gives the old one its name back (`recover`). Who reads or writes an order holds a lock of the orders' folder meanwhile,
so that what was compared is what is written over."""
import contextlib
import ctypes
import errno
import fcntl
import hashlib
import os
import pathlib
import re
import shutil
import stat
import time
from typing import Collection, Dict, Iterator, List, Mapping, Optional

from desk import carton, outputs, textform

FOILS = 8
# what the files of a foil are called, after its name
ENDINGS = (".txt", ".job", ".svg", "-slip.txt", "-words.txt", "-ohms.txt", ".hpgl", ".html")
# a name, and the letters in it that a folder has in hexadecimal
NAME = re.compile(r"[^\W_]|(?:[^\W_]|['&#])[\w\-+(). '&#,]{0,58}[\w)'&#]")
UNSAFE = re.compile("['&#,]")
SAID = "letters, digits, blanks and - _ + ( ) . ' & # , inside, at most 60"
# an order's folder in the making, and one that was taken away
HALF = re.compile(r"\.(.+)\.(new|old)")
# how much of a line is shown that differs
SHOWN = 40
# a file of an order has fewer bytes
LARGEST = 64_000_000
# of Linux's renameat2: paths are from where the command stands, and two of them change places
FROM_HERE, EXCHANGE = -100, 2
# what it answers where the disk or the system has no such exchange
NO_EXCHANGE = (errno.ENOSYS, errno.EINVAL, errno.ENOTSUP, errno.EXDEV)
# how long the lock of the orders' folder is waited for, in seconds
PATIENCE = 20


class NoOrder(Exception):
    """A name that is none for an order, or what is no folder of the orders' folder: why."""


class Differs(Exception):
    """An order would be written over another: what differs, and the digest of what is there."""

    def __init__(self, said: List[str], digest: str) -> None:
        super().__init__("; ".join(said))
        self.said, self.digest = said, digest


# names

def good(name: str) -> str:
    """A name of an order."""
    if not NAME.fullmatch(name) or ".." in name:
        raise NoOrder(f"`{textform.seen(name)}` is no name for an order: {SAID}")
    return name


def safe(name: str) -> str:
    """What a folder or a file of an order is called: its name, with some letters as % and two digits, so that no two
    names have one folder."""
    return UNSAFE.sub(lambda letter: f"%{ord(letter[0]):02X}", name)


def name_of(folder: str) -> Optional[str]:
    """The name of the order that has a folder; none where it is no order's."""
    name = re.sub("%(2[0-9A-F])", lambda code: chr(int(code[1], 16)), folder)
    return name if NAME.fullmatch(name) and ".." not in name and safe(name) == folder else None


def stem(name: str, k: int) -> str:
    """What the papers of a foil are headed by."""
    return name if k == 0 else f"{name}-{k}"


def files_named(name: str, k: int, files: Mapping[str, bytes]) -> Dict[str, bytes]:
    """The files of a foil by their names, from what they are called after the order's."""
    return {safe(stem(name, k)) + ending: content for ending, content in files.items()}


def own_names(name: str) -> List[str]:
    """What the files of an order can be called, foil by foil."""
    return [safe(stem(name, k)) + ending for k in range(FOILS) for ending in ENDINGS]


def texts_named(name: str) -> List[str]:
    """What the texts of an order can be called, by foil."""
    return [safe(stem(name, k)) + ".txt" for k in range(FOILS)]


def place(root: pathlib.Path, name: str) -> pathlib.Path:
    """Where the folder of an order is, or would be; a link or a file is none."""
    folder = root / safe(good(name))
    if os.path.lexists(folder) and (folder.is_symlink() or not folder.is_dir()):
        raise NoOrder(f"{folder} is a link or a file, and no folder of an order")
    return folder


# what is there

@contextlib.contextmanager
def locked(root: pathlib.Path) -> Iterator[None]:
    """Holds the lock of the orders' folder; an order that a stop has left without its name has it again."""
    there = os.open(root, os.O_RDONLY | os.O_DIRECTORY | os.O_CLOEXEC)
    try:
        wait_for(there, time.monotonic() + PATIENCE)
        recover(root)
        yield
    finally:
        os.close(there)


def wait_for(there: int, until: float) -> None:
    """Takes the lock of an open folder, and waits for it until a time."""
    while True:
        try:
            fcntl.flock(there, fcntl.LOCK_EX | fcntl.LOCK_NB)
            return
        except BlockingIOError:
            if time.monotonic() > until:
                raise BlockingIOError(errno.EAGAIN, "another command has this folder locked") from None
        time.sleep(0.02)


def recover(root: pathlib.Path) -> None:
    """Does away with what a stop in the middle of a write has left: an old folder whose place is empty takes it again,
    and all else that is half goes."""
    for half in sorted(os.listdir(root)):
        found = HALF.fullmatch(half)
        if found and name_of(found[1]) is not None and not root.joinpath(half).is_symlink():
            if found[2] == "old" and not os.path.lexists(root / found[1]):
                os.rename(root / half, root / found[1])
            else:
                remove(root / half)


def held(folder: pathlib.Path, name: str) -> Dict[str, Optional[bytes]]:
    """The files of an order as its folder holds them, foil by foil; none for what is no file."""
    there = set(os.listdir(folder)) if folder.is_dir() else set()
    return {file: content_of(folder / file) for file in own_names(name) if file in there}


def content_of(path: pathlib.Path) -> Optional[bytes]:
    """The bytes of a file; none for a link, a folder or another thing that no order has."""
    found = path.lstat()
    return path.read_bytes() if stat.S_ISREG(found.st_mode) and found.st_size < LARGEST else None


def digest_of(files: Mapping[str, Optional[bytes]]) -> str:
    """What tells one content of a folder from another, the date on the carton's page apart."""
    made = hashlib.sha256()
    for file, content in sorted(files.items()):
        plain = b"-" if content is None else b"+" + compared(file, content)
        made.update(b"%s\0%d\0%s" % (file.encode(), len(plain), plain))
    return made.hexdigest()


def compared(file: str, content: bytes) -> bytes:
    """What is compared of a file."""
    return carton.undated(content) if file.endswith(".html") else content


def differences(name: str, there: Mapping[str, Optional[bytes]], new: Mapping[str, bytes]) -> List[str]:
    """What of the files of an order would be lost: those that are others and those that would go, in words."""
    said, changed, gone, texts = [], [], [], texts_named(name)
    for file, content in there.items():
        if file not in new:
            gone.append(file)
        elif content is None:
            said.append(f"{file} is a link, or no file")
        elif compared(file, content) != compared(file, new[file]):
            if file in texts:
                said.append(text_difference(file, content, new[file]))
            else:
                changed.append(file)
    if (said or changed or gone) and not set(texts) & set(there):
        said.append("it was made without its text, so names and remarks are missing in it")
    said += [f"{', '.join(changed)} {'is another' if len(changed) == 1 else 'are others'}"] if changed else []
    return said + ([f"{', '.join(gone)} would go"] if gone else [])


def text_difference(file: str, old: bytes, new: bytes) -> str:
    """Where a text is another: the first line that differs."""
    lines = [content.decode("utf-8", "replace").splitlines() for content in (old, new)]
    longest = max(map(len, lines))
    for at, (one, other) in enumerate(zip(*(each + [""] * (longest - len(each)) for each in lines)), 1):
        if one != other:
            return f"{file} is another text, first in line {at}: it has `{shown(one)}`, not `{shown(other)}`"
    return f"{file} is another text, in how its lines end"


def shown(line: str) -> str:
    """A line as a message shows it."""
    plain = "".join(letter if letter.isprintable() else " " for letter in line).strip()
    return plain if len(plain) <= SHOWN else plain[:SHOWN - 2] + ".."


# writing

def write(root: pathlib.Path, name: str, files: Mapping[str, bytes], over: Collection[str] = (),
          replace: bool = False) -> None:
    """Writes the files of an order, and no other file of it is left. Where something would be lost by that, only if the
    folder holds what one of the digests `over` tells, or if that is asked for (`replace`)."""
    root.mkdir(parents=True, exist_ok=True)
    with locked(root):
        folder = place(root, name)
        there = held(folder, name)
        said, digest = differences(name, there, files), digest_of(there)
        if said and not replace and digest not in over:
            raise Differs(said, digest)
        write_folder(folder, name, files)


def write_folder(folder: pathlib.Path, name: str, files: Mapping[str, bytes]) -> None:
    """Writes a folder whole or not at all, as the head of this file says."""
    new, old = (folder.with_name(f".{folder.name}.{half}") for half in ("new", "old"))
    try:
        fill(new, folder, name, files)
        swap(new, folder, old)
    except BaseException:
        remove(new)
        raise
    for half in (new, old):
        remove(half)


def remove(folder: pathlib.Path) -> None:
    """Takes a folder away, with what is in it. Where that fails, the next who comes tries again."""
    for there, _, _ in os.walk(folder):
        with contextlib.suppress(OSError):
            os.chmod(there, stat.S_IRWXU)
    shutil.rmtree(folder, ignore_errors=True)


def fill(new: pathlib.Path, folder: pathlib.Path, name: str, files: Mapping[str, bytes]) -> None:
    """Makes a folder with these files, synced, and with what else is in the one that it is for."""
    if folder.is_dir() and not os.access(folder, os.W_OK | os.X_OK):
        raise PermissionError(errno.EACCES, os.strerror(errno.EACCES), str(folder))
    os.mkdir(new)
    own = set(own_names(name))
    for there in sorted(folder.iterdir()) if folder.is_dir() else ():
        if there.name not in own:
            carry(there, new / there.name)
        elif there.is_dir() and not there.is_symlink():
            raise IsADirectoryError(errno.EISDIR, "a folder is in the place of a file", str(there))
    for file, content in files.items():
        there = folder / file
        is_file = there.is_file() and not there.is_symlink()
        outputs.put_new(new / file, content, stat.S_IMODE(there.stat().st_mode) if is_file else None)
    if folder.is_dir():
        shutil.copymode(folder, new)
    sync(new)


def carry(there: pathlib.Path, to: pathlib.Path) -> None:
    """Has what is no file of the order in another folder too: files are linked, or copied where links cannot be had."""
    if there.is_dir() and not there.is_symlink():
        os.mkdir(to)
        for inside in sorted(there.iterdir()):
            carry(inside, to / inside.name)
        shutil.copystat(there, to)
        return
    try:
        os.link(there, to, follow_symlinks=False)
    except OSError as fault:
        if fault.errno not in (errno.EPERM, errno.ENOTSUP, errno.EMLINK):
            raise
        shutil.copy2(there, to, follow_symlinks=False)


def swap(new: pathlib.Path, folder: pathlib.Path, old: pathlib.Path) -> None:
    """Puts a folder in the place of another, which it keeps beside it; where that fails all is as it was."""
    if folder.is_dir() and exchange(new, folder):
        try:
            sync(folder.parent)
        except BaseException:
            exchange(new, folder)
            raise
        return
    try:
        if folder.is_dir():
            os.rename(folder, old)
        os.rename(new, folder)
        sync(folder.parent)
    except BaseException:
        if os.path.lexists(folder) and not os.path.lexists(new):
            os.rename(folder, new)
        if os.path.lexists(old):
            os.rename(old, folder)
        raise


def exchange(one: pathlib.Path, other: pathlib.Path) -> bool:
    """Has two folders change places at once; whether that can be had here."""
    call = getattr(ctypes.CDLL(None, use_errno=True), "renameat2", None)
    if call is None:
        return False
    if call(FROM_HERE, os.fsencode(one), FROM_HERE, os.fsencode(other), EXCHANGE) == 0:
        return True
    number = ctypes.get_errno()
    if number in NO_EXCHANGE:
        return False
    raise OSError(number, os.strerror(number), str(other))


def sync(folder: pathlib.Path) -> None:
    """Has the names in a folder on the disk."""
    there = os.open(folder, os.O_RDONLY | os.O_DIRECTORY | os.O_CLOEXEC)
    try:
        os.fsync(there)
    finally:
        os.close(there)
