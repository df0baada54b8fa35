"""The files that commands write beside their answers: whole or not at all, whatever the disk does."""
import contextlib
import errno
import io
import os
import pathlib
import resource
import signal
import subprocess
import sys
import tempfile
import unittest
from typing import List
from unittest import mock

from desk import outputs, program
from desk.tests import given


class Whole(unittest.TestCase):
    def setUp(self) -> None:
        folder = tempfile.TemporaryDirectory()
        self.addCleanup(folder.cleanup)
        self.folder = pathlib.Path(folder.name)

    def test_a_full_disk_at_every_call(self) -> None:
        path = self.folder / "x.svg"
        for before in (None, b"<svg old>"):
            for call in ("open", "write", "fchmod", "fsync", "replace"):
                with self.subTest(call, before=before):
                    path.unlink(missing_ok=True)
                    if before:
                        path.write_bytes(before)
                    elif call == "fchmod":
                        continue
                    full = OSError(errno.ENOSPC, os.strerror(errno.ENOSPC))
                    with mock.patch.object(os, call, side_effect=full), \
                            contextlib.redirect_stderr(io.StringIO()) as err:
                        self.assertFalse(outputs.write(path, b"<svg new>"))
                    self.assertEqual(err.getvalue(), f"{path}: No space left on device\n")
                    self.assertEqual(self.files(), [("x.svg", before)] if before else [])
        self.assertTrue(outputs.write(path, b"<svg new>"))
        self.assertEqual(self.files(), [("x.svg", b"<svg new>")])

    def files(self) -> List[object]:
        """All that is in the folder."""
        return [(path.name, path.read_bytes()) for path in sorted(self.folder.iterdir())]

    def test_links_and_rights_stay(self) -> None:
        path, linked = self.folder / "x.svg", self.folder / "linked"
        path.write_bytes(b"<svg old>")
        path.chmod(0o640)
        linked.symlink_to("x.svg")
        self.assertTrue(outputs.write(linked, b"<svg new>"))
        self.assertTrue(linked.is_symlink())
        self.assertEqual((path.read_bytes(), path.stat().st_mode & 0o777), (b"<svg new>", 0o640))

    def limited(self, *words: object) -> "subprocess.CompletedProcess[str]":
        """Runs ./foil on a program that writes stored lines, where no file can have more than 100 bytes: that stands
        for a disk that becomes full."""
        path, folder = given.replay(given.written_for("window"))
        self.addCleanup(folder.cleanup)

        def limit() -> None:
            signal.signal(signal.SIGXFSZ, signal.SIG_IGN)
            resource.setrlimit(resource.RLIMIT_FSIZE, (100, 100))

        script = "import sys; from desk import command; sys.exit(command.main(sys.argv[2:], sys.argv[1]))"
        return subprocess.run([sys.executable, "-B", "-c", script, path, *map(str, words)], cwd=program.ROOT, text=True,
                              stdout=subprocess.PIPE, stderr=subprocess.PIPE, preexec_fn=limit)

    def test_a_picture_and_a_job_that_are_cut(self) -> None:
        path = self.folder / "kept"
        for option in ("--picture", "--job"):
            done = self.limited(option, path, given.SAMPLES / "window.txt")
            self.assertEqual((done.returncode, done.stderr), (4, f"{path}: File too large\n"))
            self.assertEqual(self.files(), [])


if __name__ == "__main__":
    unittest.main()
