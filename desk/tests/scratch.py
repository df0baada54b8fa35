"""A repository for tests, with a toolchain that stands for `rt`: a program is the script that is its main.rt, and its
last line has the sum of all sources that it was built from. Like `rt`, it leaves a program alone whose stamp has that
sum, and fails where two checks run at once. The desk's tools in it are those of this repository."""
import hashlib
import os
import pathlib
import shutil
import subprocess
import sys
import tempfile

from desk import program

RT = r"""#!/bin/sh
here=$(dirname "$0")
if [ "$1" = version ]; then cat "$here/version"; exit; fi
mkdir "$here/busy" || { echo "two checks at once" | tee -a "$here/calls"; exit 2; }
trap 'rmdir "$here/busy"' EXIT
trap 'exit 2' PIPE
echo "$*" >> "$here/calls"
[ ! -f "$here/slow" ] || sleep "$(cat "$here/slow")"
if [ -f "$here/fails" ]; then cat "$here/fails"; exit 1; fi
sum=$(find crates -type f | LC_ALL=C sort | xargs cat | sha256sum | cut -d' ' -f1)
mkdir -p target/bin target/stamp
shift
for name; do
    if [ "$(cat "target/stamp/$name" 2>/dev/null)" != "$sum" ]; then
        { cat "crates/$name/src/main.rt"; echo "# $sum"; } > "target/bin/$name"
        chmod +x "target/bin/$name"
        echo "$sum" > "target/stamp/$name"
    fi
    echo "rt: $name proved (0 s)"
done
"""
# libraries, and programs over them
CRATES = {"laws": "", "foil": "laws io", "other": "", "job_main": "foil laws io libc", "slip_main": "foil io libc",
          "save_main": "foil io libc", "ohms_main": "foil io libc"}


class Scratch:
    """The repository, in a folder that goes away by `remove`; its toolchain stands beside it, in `tools`."""

    def __init__(self, proofs=5, **scripts):
        self.folder = tempfile.TemporaryDirectory()
        self.remove = self.folder.cleanup
        self.root = pathlib.Path(self.folder.name) / "foils"
        self.tools = pathlib.Path(self.folder.name) / "tools"
        left_out = shutil.ignore_patterns("tests", "__pycache__")
        for name in ("desk", "screen", "tools", "hosts/python"):
            shutil.copytree(program.ROOT / name, self.root / name, ignore=left_out)
        for path in [program.ROOT / "README.md", *program.ROOT.glob("foil*")]:
            shutil.copy(path, self.root)
        self.write("crates.txt", "# NAME: what it depends on\n" + "".join("%s: %s\n" % row for row in CRATES.items()))
        for name in CRATES:
            self.write("crates/%s/src/%s.rt" % (name, "main" if "_" in name else "lib"),
                       scripts.get(name, "#!/bin/sh\n"))
        for at in range(proofs):
            self.write("crates/laws/proofs/part%d/P%d.antt" % (at % 7, at), "-- law %d\n" % at)
        self.write("../tools/rt", RT).chmod(0o755)
        self.write("tools/make", '#!/bin/sh\nexec "$(dirname "$0")/../../tools/rt" "$@"\n').chmod(0o755)
        self.write("../tools/version", "a kit 1\n")
        self.write("tools/KIT-ID", "a kit 1\n")

    def write(self, name, text):
        """Writes a file of the repository; its path."""
        path = self.root / name
        path.parent.mkdir(parents=True, exist_ok=True)
        path.write_text(text)
        return path

    def calls(self):
        """What the toolchain was asked to check, and forgets it."""
        path = self.tools / "calls"
        asked = path.read_text().splitlines() if path.exists() else []
        path.unlink(missing_ok=True)
        return asked

    def start(self, command, *words, with_rt=True, streams="", python=(), **how):
        """Starts a command of the repository, with or without the toolchain in the PATH. `streams` is put behind it as
        a shell takes it, and `python` are words for Python."""
        path = os.pathsep.join([str(self.tools)] * with_rt + ["/usr/bin", "/bin"])
        how = {"stdin": subprocess.DEVNULL, "stdout": subprocess.PIPE, "stderr": subprocess.PIPE, **how}
        script = ["/bin/sh", "-c", 'exec "$@" ' + streams, "sh", sys.executable, *python, self.root / command, *words]
        return subprocess.Popen(script, env={**os.environ, "PATH": path}, text=True, **how)

    def run(self, *words, **how):
        """Runs a command of the repository: its status, what it prints, and what it says on standard error."""
        with self.start(*words, **how) as running:
            out, err = running.communicate()
        return running.returncode, out, err

    def sum(self):
        """The sum of all sources as they stand."""
        paths = sorted(self.root.joinpath("crates").rglob("*"), key=lambda path: str(path.relative_to(self.root)))
        return hashlib.sha256(b"".join(path.read_bytes() for path in paths if path.is_file())).hexdigest()

    def built_from(self, name):
        """The sum of the sources that a program was built from."""
        return self.root.joinpath("target", "bin", name).read_text().splitlines()[-1].removeprefix("# ")
