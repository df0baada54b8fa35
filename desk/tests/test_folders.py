"""An order's folder: its name, what is compared, and that it is written whole or not at all, wherever a disk is full or
the writer is killed."""
import contextlib
import errno
import os
import pathlib
import shutil
import tempfile
import unittest
from typing import Any, Callable, Dict, List, Optional, Set, Tuple
from unittest import mock

from desk import folders

OLD = {"keys.txt": b"board 1 1 0\nend\n", "keys.job": b"old job", "keys.svg": b"<svg old>", "keys-ohms.txt": b"old"}
NEW = {"keys.txt": b"board 2 2 0\nend\n", "keys.job": b"new job", "keys.svg": b"<svg new>", "keys.html": b"new page"}
MINE = {"note.txt": b"by hand", "more/note": b"by hand too"}
# a user without rights
NOBODY = 65534
# the calls by which a folder is written
CALLS = ("mkdir", "open", "write", "fchmod", "fsync", "link", "rename", "unlink", "rmdir")


class Folder(unittest.TestCase):
    def setUp(self) -> None:
        folder = tempfile.TemporaryDirectory()
        self.addCleanup(folder.cleanup)
        self.root = pathlib.Path(folder.name) / "orders"

    def put(self, files: Dict[str, bytes], **how: bool) -> None:
        """Writes the order of keys."""
        folders.write(self.root, "keys", files, **how)

    def begin(self) -> None:
        """Has the old order there, with files that are not its own."""
        shutil.rmtree(self.root, ignore_errors=True)
        self.put(OLD)
        for name, content in MINE.items():
            path = self.root / "keys" / name
            path.parent.mkdir(exist_ok=True)
            path.write_bytes(content)

    def tree(self) -> Dict[str, bytes]:
        """All that is in the order's folder."""
        folder = self.root / "keys"
        return {path.relative_to(folder).as_posix(): path.read_bytes()
                for path in folder.rglob("*") if path.is_file()}


class Names(unittest.TestCase):
    def test_names_and_their_folders(self) -> None:
        for name, folder in (("keys", "keys"), ("O'Neil & Sons, #4", "O%27Neil %26 Sons%2C %234"), ("#4", "%234"),
                             ("a window (2)", "a window (2)"), ("Ärmel_3", "Ärmel_3"), ("a&b", "a%26b")):
            self.assertEqual((folders.safe(folders.good(name)), folders.name_of(folder)), (folder, name))

    def test_no_name(self) -> None:
        for name in ("", ".", "..", "...", "a/b", "../a", ".screen", "a..b", "a\0b", "a\nb", " a", "a ", "-a", "a,",
                     "a" * 61, "a\\b", "~", "a:b", "%2e%2e", "%27", "a%27b", ",a"):
            with self.assertRaises(folders.NoOrder):
                folders.good(name)
            if not name.startswith("a%"):
                self.assertIsNone(folders.name_of(name))

    def test_no_two_names_have_one_folder(self) -> None:
        letters = "a'&#,-"
        names = [a + b + c for a in "a'" for b in letters for c in "a#"]
        self.assertEqual(len({folders.safe(name) for name in names}), len(names))


class Comparing(Folder):
    def differs(self, files: Dict[str, bytes]) -> str:
        """What is said before the order is written over."""
        with self.assertRaises(folders.Differs) as raised:
            self.put(files)
        return str(raised.exception)

    def test_what_is_there_is_not_written_over_without_a_word(self) -> None:
        self.begin()
        for file in OLD:
            with self.subTest(file):
                said = self.differs({**OLD, file: b"other"})
                self.assertIn(file, said)
                self.assertEqual({name: self.tree()[name] for name in OLD}, OLD)

    def test_what_would_go_is_said(self) -> None:
        self.begin()
        self.assertEqual(self.differs({"keys.txt": OLD["keys.txt"]}), "keys.job, keys.svg, keys-ohms.txt would go")
        (self.root / "keys" / "keys-5.txt").write_text("board 3 3 0\nend\n")
        self.assertEqual(self.differs(OLD), "keys-5.txt would go")

    def test_the_first_line_that_differs_is_said(self) -> None:
        self.begin()
        self.assertEqual(self.differs({**OLD, "keys.txt": b"board 1 1 0\npatch 0 0 1 1\nend\n"}),
                         "keys.txt is another text, first in line 2: it has `end`, not `patch 0 0 1 1`")

    def test_nothing_is_asked_where_nothing_would_be_lost(self) -> None:
        self.begin()
        self.put({**OLD, "keys.html": b"<time>2026-11-17</time>"})
        self.put({**OLD, "keys.html": b"<time>2026-11-18</time>"})
        self.assertEqual(self.tree()["keys.html"], b"<time>2026-11-18</time>")
        self.assertIn("keys.html is another", self.differs({**OLD, "keys.html": b"<time>2026-11-18</time> more"}))

    def test_an_order_without_its_text(self) -> None:
        self.begin()
        (self.root / "keys" / "keys.txt").unlink()
        self.assertIn("names and remarks are missing", self.differs(NEW))

    def test_only_what_was_seen_is_written_over(self) -> None:
        self.begin()
        with self.assertRaises(folders.Differs) as raised:
            self.put(NEW)
        (self.root / "keys" / "keys.job").write_bytes(b"changed meanwhile")
        with self.assertRaises(folders.Differs):
            folders.write(self.root, "keys", NEW, [raised.exception.digest])
        (self.root / "keys" / "keys.job").write_bytes(OLD["keys.job"])
        folders.write(self.root, "keys", NEW, [raised.exception.digest])
        self.assertEqual(self.tree(), {**NEW, **MINE})

    def test_a_link_is_no_folder(self) -> None:
        outside = self.root.parent / "outside"
        outside.mkdir()
        self.root.mkdir()
        (self.root / "keys").symlink_to(outside)
        with self.assertRaises(folders.NoOrder):
            self.put(NEW, replace=True)
        self.assertEqual(os.listdir(outside), [])

    def test_a_folder_in_the_place_of_a_file_is_not_lost(self) -> None:
        self.begin()
        (self.root / "keys" / "keys.html").mkdir()
        with self.assertRaises(IsADirectoryError):
            self.put(NEW, replace=True)
        self.assertTrue((self.root / "keys" / "keys.html").is_dir())

    def put_as_nobody(self) -> int:
        """Writes the new order without root's rights: the number of what was wrong, or 0."""
        for path in [self.root.parent, self.root, *self.root.rglob("*")]:
            if os.geteuid() == 0:
                os.chown(path, NOBODY, NOBODY)
        child = os.fork()
        if not child:
            try:
                if os.geteuid() == 0:
                    os.setgid(NOBODY)
                    os.setuid(NOBODY)
                self.put(NEW, replace=True)
                os._exit(0)
            except OSError as fault:
                os._exit(fault.errno or 255)
        return os.waitstatus_to_exitcode(os.waitpid(child, 0)[1])

    def test_folders_that_cannot_be_written(self) -> None:
        for locked in ("orders", "orders/keys"):
            with self.subTest(locked):
                self.begin()
                self.root.parent.joinpath(locked).chmod(0o555)
                self.assertEqual((self.put_as_nobody(), self.tree(), os.listdir(self.root)), (
                    errno.EACCES, {**OLD, **MINE}, ["keys"]))
                self.root.parent.joinpath(locked).chmod(0o755)

    def test_a_folder_that_is_locked_inside_another(self) -> None:
        self.begin()
        self.root.joinpath("keys", "more").chmod(0o555)
        for _ in range(2):
            self.assertEqual((self.put_as_nobody(), self.tree(), os.listdir(self.root)), (
                0, {**NEW, **MINE}, ["keys"]))
        self.assertEqual(self.root.joinpath("keys", "more").stat().st_mode & 0o777, 0o555)
        self.root.joinpath("keys", "more").chmod(0o755)

    def test_rights_are_kept(self) -> None:
        self.begin()
        (self.root / "keys").chmod(0o750)
        (self.root / "keys" / "keys.txt").chmod(0o600)
        self.put(NEW, replace=True)
        self.assertEqual([(self.root / "keys" / name).stat().st_mode & 0o777 for name in ("", "keys.txt")],
                         [0o750, 0o600])


class Whole(Folder):
    """At each call of a write in turn the disk is full, or the writer is killed: by an exchange of folders, where that
    can be had, and by two renames."""

    def stopped_at(self, at: int, stop: Callable[[], None], way: Callable[..., bool]) -> Tuple[Any, List[int]]:
        """The calls of a write, of which one is stopped instead; and where it came to, counted."""
        counted = [0]

        def counting(call: Callable[..., object]) -> Callable[..., object]:
            def called(*given: object, **how: object) -> object:
                counted[0] += 1
                if counted[0] == at:
                    stop()
                return call(*given, **how)
            return called

        stopped = contextlib.ExitStack()
        stopped.enter_context(mock.patch.multiple(os, **{name: counting(getattr(os, name)) for name in CALLS}))
        stopped.enter_context(mock.patch.object(folders, "exchange", counting(way)))
        return stopped, counted

    def full_at(self, at: int, way: Callable[..., bool]) -> Tuple[bool, bool]:
        """Writes the new order on a disk that is full at a call: whether that was told, and whether the write came so
        far."""
        def full() -> None:
            raise OSError(errno.ENOSPC, os.strerror(errno.ENOSPC))

        stopped, counted = self.stopped_at(at, full, way)
        with stopped:
            try:
                self.put(NEW, replace=True)
            except OSError as fault:
                self.assertEqual(fault.errno, errno.ENOSPC)
                return True, True
        return False, counted[0] >= at

    def killed_at(self, at: int, way: Callable[..., bool]) -> bool:
        """Writes the new order in a process that is killed at a call: whether it came so far."""
        child = os.fork()
        if not child:
            try:
                with self.stopped_at(at, lambda: os._exit(9), way)[0]:
                    self.put(NEW, replace=True)
            finally:
                os._exit(0)
        return os.waitstatus_to_exitcode(os.waitpid(child, 0)[1]) == 9

    def recovered(self) -> None:
        """The next who comes finds one whole order, and nothing half beside it."""
        with folders.locked(self.root):
            self.assertEqual(os.listdir(self.root), ["keys"])
        self.assertIn(self.tree(), ({**OLD, **MINE}, {**NEW, **MINE}))

    def full_everywhere(self, way: Callable[..., bool]) -> None:
        told_at, at, reached = [], 0, True
        while reached:
            at += 1
            self.begin()
            told, reached = self.full_at(at, way)
            # what was told left the old order, and what was not the new one
            self.assertEqual(self.tree(), {**(OLD if told else NEW), **MINE})
            self.recovered()
            told_at += [at] * told
        self.assertGreater(len(told_at), 3 * len(NEW))

    def killed_everywhere(self, way: Callable[..., bool]) -> Set[Tuple[Optional[bytes], bytes]]:
        """The job file in the order's place after each kill, and the one after the next has come."""
        seen, at, reached = set(), 0, True
        while reached:
            at += 1
            self.begin()
            reached, there = self.killed_at(at, way), self.tree()
            # what lies in the place of the order is the old one, the new one, or nothing
            self.assertIn(there, ({}, {**OLD, **MINE}, {**NEW, **MINE}))
            self.recovered()
            seen.add((there.get("keys.job"), self.tree()["keys.job"]))
        return seen

    def can_exchange(self) -> bool:
        """Whether two folders can change places here."""
        self.begin()
        (self.root / "other").mkdir()
        return folders.exchange(self.root / "keys", self.root / "other")

    def test_a_full_disk(self) -> None:
        self.full_everywhere(folders.exchange)
        self.full_everywhere(lambda *_: False)

    def test_a_writer_that_is_killed(self) -> None:
        whole = {(OLD["keys.job"], OLD["keys.job"]), (NEW["keys.job"], NEW["keys.job"])}
        # a stop between two renames is among them, and gives the old order back
        renamed = whole | {(None, OLD["keys.job"])}
        self.assertEqual(self.killed_everywhere(lambda *_: False), renamed)
        self.assertEqual(self.killed_everywhere(folders.exchange), whole if self.can_exchange() else renamed)

    def test_a_first_order_on_a_full_disk(self) -> None:
        at, reached = 0, True
        while reached:
            at += 1
            shutil.rmtree(self.root, ignore_errors=True)
            self.root.mkdir()
            told, reached = self.full_at(at, folders.exchange)
            self.assertEqual(os.listdir(self.root), [] if told else ["keys"])


if __name__ == "__main__":
    unittest.main()
