"""A disk of a few kilobytes, where this user may mount one."""
import os
import pathlib
import subprocess
import tempfile

WHY = "no small disk can be mounted here: that wants root and the right to mount"


class Disk:
    """A disk at a folder, which is made for it, while the block lasts."""

    def __init__(self, place: pathlib.Path, size: str) -> None:
        self.place, self.size = place, size

    def __enter__(self) -> "Disk":
        self.place.mkdir()
        subprocess.run(["mount", "-t", "tmpfs", "-o", f"size={self.size}", "none", str(self.place)], check=True,
                       stderr=subprocess.DEVNULL)
        return self

    def __exit__(self, *_: object) -> None:
        subprocess.run(["umount", str(self.place)], check=True)


def can_be_had() -> bool:
    """Whether such a disk can be mounted."""
    if os.geteuid() != 0:
        return False
    with tempfile.TemporaryDirectory() as folder:
        try:
            with Disk(pathlib.Path(folder) / "disk", "16k"):
                return True
        except (OSError, subprocess.CalledProcessError):
            return False
