"""The orders' folder, as the screen has it: past orders, the one that is open, and its save. What an order's folder is
called and holds, and how it is written, is desk/folders.py's. Nothing outside the orders' folder is read or written: an
order is found by its name alone, which has no slash and no leading dot, and no link is followed.

What screens keep for themselves is in the folder .screen: a lock for each order that is open, and a draft of one that
has changes which were never saved. Of an order that is open the shelf keeps the digest of what its folder held then:
a save over anything else is asked for."""
import contextlib
import datetime
import errno
import fcntl
import json
import os
import pathlib
import secrets
import stat
from typing import Any, Dict, List, Mapping, Optional, Tuple

from desk import folders, textform
from screen.order import FOILS, Order
from screen.session import Fault

# what a folder holds, by the names of its files
Files = Mapping[str, Optional[bytes]]
OWN = ".screen"
# how many bytes are read of a file at most
MOST = 4_000_000
FOLDER = os.O_RDONLY | os.O_DIRECTORY | os.O_NOFOLLOW | os.O_CLOEXEC
# how many orders without a name can be open at once
NAMELESS = 16


def good(name: object) -> str:
    """A name of an order, or a fault."""
    try:
        return folders.good(name if isinstance(name, str) else "")
    except folders.NoOrder as fault:
        raise Fault("name", str(fault)) from None


class Shelf:
    """The orders' folder, and the lock of the order that is open."""

    def __init__(self, path: pathlib.Path) -> None:
        self.path = path
        path.mkdir(parents=True, exist_ok=True)
        self.root = os.open(path, os.O_RDONLY | os.O_DIRECTORY | os.O_CLOEXEC)
        self.lock, self.slot = None, None
        # the digest of what the folder of an order held when it was opened or saved here, by name
        self.seen: Dict[str, str] = {}

    # folders and files

    @contextlib.contextmanager
    def folder(self, name, make=False):
        """The folder of an order, open; none where it is not there."""
        if make:
            with contextlib.suppress(FileExistsError):
                os.mkdir(name, dir_fd=self.root)
        try:
            there = os.open(name, FOLDER, dir_fd=self.root)
        except FileNotFoundError:
            yield None
            return
        except OSError as fault:
            if fault.errno in (errno.ELOOP, errno.ENOTDIR):
                raise Fault("name", "%s is no folder of this place" % name)
            raise
        try:
            yield there
        finally:
            os.close(there)

    def write(self, folder: int, name: str, content: bytes) -> None:
        """Writes a draft beside its place, which it then takes."""
        half = ".%s.%s.new" % (name, secrets.token_hex(4))
        there = os.open(half, os.O_WRONLY | os.O_CREAT | os.O_EXCL | os.O_NOFOLLOW | os.O_CLOEXEC, 0o644, dir_fd=folder)
        try:
            with open(there, "wb") as file:
                file.write(content)
            os.replace(half, name, src_dir_fd=folder, dst_dir_fd=folder)
        except BaseException:
            with contextlib.suppress(FileNotFoundError):
                os.unlink(half, dir_fd=folder)
            raise

    # past orders

    def held(self, name: str) -> Files:
        """What the folder of an order holds."""
        try:
            with folders.locked(self.path):
                return folders.held(folders.place(self.path, good(name)), name)
        except folders.NoOrder as fault:
            raise Fault("name", str(fault)) from None

    def orders(self) -> List[Dict[str, object]]:
        """The orders that are there, the last changed first."""
        made: List[Dict[str, Any]] = []
        with folders.locked(self.path):
            for name in filter(None, map(folders.name_of, os.listdir(self.root))):
                with contextlib.suppress(Fault, OSError):
                    made += self.listed(name)
        made.sort(key=lambda order: (order.pop("when"), order["name"]), reverse=True)
        return made

    def listed(self, name: str) -> List[Dict[str, Any]]:
        """An order in the list; none where the folder is none of an order's."""
        with self.folder(folders.safe(name)) as folder:
            stems = [folders.safe(folders.stem(name, k)) for k in range(FOILS)] if folder else []
            times = [time for time in (changed(folder, stem) for stem in stems) if time]
        if not times:
            return []
        said = datetime.datetime.fromtimestamp(max(times)).strftime("%Y-%m-%d %H:%M")
        return [{"name": name, "changed": said, "foils": len(times), "open": self.is_held(name),
                 "draft": self.draft_of(name) is not None, "when": max(times)}]

    def texts(self, name: str) -> Tuple[str, ...]:
        """The texts of an order, or a fault where there is none."""
        return texts_of(name, self.held(name))

    # opening and saving

    def open(self, name: str) -> Order:
        """An order, opened: with the draft where one was left, and with a word where another screen has it, or where
        its folder is not as a save leaves it."""
        there = self.held(name)
        order = Order(name, texts_of(name, there))
        order.amiss, digest = "; ".join(amiss(name, there)), folders.digest_of(there)
        order.other = self.take(name)
        self.seen = {} if strange_jobs(name, there) else {name: digest}
        draft = None if order.other else self.draft_of(name)
        if draft and draft["texts"] != list(order.texts):
            order = restored(order, draft)
            if draft.get("over") != digest:
                order.draft += "; the order in its folder is another than the one that they change"
                self.seen = {}
        return order

    def begin(self, order, left=False):
        """Has an order open that is not from the shelf; on demand with a draft that was left of such an order."""
        self.seen = {}
        order.other = self.take(order.name, left)
        draft = self.draft_of(self.slot) if left and self.lock is not None else None
        return restored(order, draft) if draft else order

    def save(self, order: Order, name: str, files: Mapping[str, bytes], over: str) -> List[str]:
        """Writes the files of an order, and takes away what else was made for it: their names. Over what another screen
        has open, or what differs from what this one has seen of it, only where `over` tells what is there now."""
        good(name)
        if order.other if name == self.slot else self.is_held(name):
            digest = folders.digest_of(self.held(name))
            if over != digest:
                raise Fault("taken", f"another screen has the order {name} open, {self.holder(name)}", digest=digest)
        seen = self.seen.get(name)
        try:
            folders.write(self.path, name, files, [over] + [seen] * bool(seen))
        except folders.Differs as differs:
            since = "was changed since it was opened here" if seen else "was not opened here as it is"
            raise Fault("taken", f"there is an order {name} already, which {since}: {differs}",
                        digest=differs.digest) from None
        except folders.NoOrder as fault:
            raise Fault("name", str(fault)) from None
        except OSError as fault:
            raise Fault("files", f"{name} cannot be written: {fault.strerror}; the order is as it was") from None
        self.drop_draft()
        self.seen = {name: folders.digest_of(files)}
        if name != self.slot:
            order.other = self.take(name)
            self.drop_draft()
        return sorted(files)

    # locks

    def own(self):
        """The folder that screens have for themselves, open."""
        return self.folder(OWN, make=True)

    def slots(self, left):
        """The slots of orders without a name: those with a draft on demand, then those without one."""
        every = ["-%d" % at for at in range(1, NAMELESS + 1)]
        kept = [slot for slot in every if self.draft_of(slot) is not None]
        return (kept if left else []) + [slot for slot in every if slot not in kept]

    def take(self, name, left=False):
        """Takes the lock of an order, or that of one without a name: words where another screen has it."""
        self.release()
        for slot in [name] if name else self.slots(left):
            lock = self.locked(slot)
            if lock is not None:
                self.lock, self.slot = lock, slot
                os.ftruncate(lock, 0)
                os.write(lock, ("since %s, process %d" % (now(), os.getpid())).encode())
                return ""
        self.slot = name or None
        return "another screen has this order open, %s" % self.holder(name) if name else ""

    def locked(self, slot, make=True):
        """The lock of a slot, held; none where another screen holds it. Where there is none it is made on demand."""
        how = os.O_RDWR | os.O_NOFOLLOW | os.O_CLOEXEC | (os.O_CREAT if make else 0)
        with self.own() as own:
            lock = os.open(slot + ".lock", how, 0o644, dir_fd=own)
        try:
            fcntl.flock(lock, fcntl.LOCK_EX | fcntl.LOCK_NB)
        except OSError:
            os.close(lock)
            return None
        return lock

    def is_held(self, name):
        """Whether a screen has an order open, this one or another."""
        if name == self.slot:
            return True
        try:
            lock = self.locked(name, make=False)
        except FileNotFoundError:
            return False
        if lock is not None:
            os.close(lock)
        return lock is None

    def holder(self, slot):
        """What is known of the screen that holds a lock."""
        with self.own() as own:
            return (read(own, slot + ".lock") or b"").decode("utf-8", "replace")[:80]

    def release(self):
        """Gives the lock back."""
        if self.lock is not None:
            os.close(self.lock)
        self.lock, self.slot = None, None

    # drafts

    def keep_draft(self, order: Order) -> None:
        """Keeps an order that has changes; one that another screen has open has no draft. Where it cannot be kept, that
        is said."""
        if self.lock is None:
            return
        content = json.dumps({"name": order.name, "when": now(), "texts": order.texts,
                              "over": self.seen.get(order.name)}).encode()
        try:
            with self.own() as own:
                self.write(own, self.slot + ".draft", content)
            order.unkept = ""
        except OSError as fault:
            order.unkept = f"changes are not kept on the disk until a save ({fault.strerror})"
        except Fault as fault:
            order.unkept = f"changes are not kept on the disk until a save ({fault.why})"

    def drop_draft(self):
        """Takes the draft away: nothing is unsaved."""
        if self.lock is not None:
            with self.own() as own, contextlib.suppress(FileNotFoundError):
                os.unlink(self.slot + ".draft", dir_fd=own)

    def draft_of(self, slot):
        """The draft of a slot, or none."""
        with self.own() as own:
            content = read(own, slot + ".draft")
        try:
            draft = json.loads(content) if content else None
            return draft if draft and len(draft["texts"]) == FOILS and all(
                isinstance(text, str) for text in draft["texts"]) else None
        except (ValueError, KeyError, TypeError):
            return None


def restored(order, draft):
    """An order with the texts of its draft, as changes that can be undone."""
    for k, text in enumerate(draft["texts"]):
        if text != order.texts[k]:
            order.change(k, text)
    order.draft = "changes of %s that were never saved" % draft.get("when", "an earlier day")
    return order


def now():
    """The time."""
    return datetime.datetime.now().strftime("%Y-%m-%d %H:%M")


def changed(folder, name):
    """When the text of a foil was changed, or its job file; none where there is none."""
    for ending in (".txt", ".job"):
        try:
            found = os.stat(name + ending, dir_fd=folder, follow_symlinks=False)
        except FileNotFoundError:
            continue
        if stat.S_ISREG(found.st_mode):
            return found.st_mtime
    return None


def read(folder, name):
    """The bytes of a file, none where there is none; a link is none."""
    try:
        there = os.open(name, os.O_RDONLY | os.O_NOFOLLOW | os.O_NONBLOCK | os.O_CLOEXEC, dir_fd=folder)
    except OSError as fault:
        if fault.errno in (errno.ENOENT, errno.ELOOP):
            return None
        raise
    with open(there, "rb") as file:
        content = file.read(MOST + 1) if stat.S_ISREG(os.fstat(file.fileno()).st_mode) else None
    if content and len(content) > MOST:
        raise Fault("large", "%s has more than %d bytes, and no job has so many" % (name, MOST))
    return content


def texts_of(name: str, there: Files) -> Tuple[str, ...]:
    """The texts of an order by what its folder holds: each its own, or that of its job file. A fault where there is
    none."""
    made = [text_in(there, folders.safe(folders.stem(name, k))) for k in range(FOILS)]
    if all(text is None for text in made):
        raise Fault("absent", f"there is no order {name}")
    return tuple(text or "" for text in made)


def text_in(there: Files, stem: str) -> Optional[str]:
    """The text of a foil: its own, or that of its job file; none where there is neither."""
    text, job = there.get(stem + ".txt"), there.get(stem + ".job")
    if text is not None:
        return decoded(text, stem + ".txt")
    return str(textform.show(job)) if job else None


def strange_jobs(name: str, there: Files) -> List[str]:
    """The job files of an order that are not those of their texts."""
    made = []
    for stem in (folders.safe(folders.stem(name, k)) for k in range(FOILS)):
        text, job = there.get(stem + ".txt"), there.get(stem + ".job")
        if text is not None and job is not None:
            try:
                if textform.read(text).job == job:
                    continue
            except textform.Unreadable:
                pass
            made.append(stem + ".job")
    return made


def amiss(name: str, there: Files) -> List[str]:
    """What is to be known of an order's folder that is not as a save leaves it."""
    stems = [folders.safe(folders.stem(name, k)) for k in range(FOILS)]
    bare = [stem + ".job" for stem in stems if there.get(stem + ".job") and there.get(stem + ".txt") is None]
    others = strange_jobs(name, there)
    return (["%s has no text beside it, so names and remarks are missing here" % ", ".join(bare)] if bare else []) + (
        ["%s is not made from the text beside it: look which of the two is meant before a save" % ", ".join(others)]
        if others else [])


def decoded(content: bytes, name: str) -> str:
    """The bytes of a text as a text, its lines ended by line feeds."""
    if len(content) > MOST:
        raise Fault("large", f"{name} has more than {MOST} bytes, and no job has so many")
    try:
        return textform.decoded(content)
    except textform.Unreadable as unreadable:
        raise Fault("asked", "%s, line %d: %s" % (name, *unreadable.faults[0])) from None
