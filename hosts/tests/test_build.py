"""hosts/build puts the library of the sources as they stand in a folder, and proves nothing twice. Here the toolchain
and the library are stand-ins (desk/tests/scratch.py): the archive has functions of the calls' names that do nothing."""
import re
import shutil
import subprocess
import unittest

from desk import program
from desk.tests.scratch import Scratch

HEADER = program.ROOT / "hosts" / "c" / "foil.h"
CALLS = sorted(re.findall(r"^struct \w+ (foil_\w+)\(", HEADER.read_text(encoding="utf-8"), re.MULTILINE))
RT = r"""#!/bin/sh
here=$(dirname "$0")
if [ "$1" = version ]; then cat "$here/version"; exit; fi
echo "$*" >> "$here/calls"
if [ -f "$here/fails" ]; then cat "$here/fails"; exit 1; fi
sum=$(find crates -type f | LC_ALL=C sort | xargs cat | sha256sum | cut -d' ' -f1)
mkdir -p target/staticlib
{ echo "const char sum_of_sources[] = \"$sum\";"; for name in CALLS; do echo "void $name(void) {}"; done; } |
    cc -c -fPIC -x c -o target/host.o -
ar rcs target/staticlib/libhost.a target/host.o
echo "rt: laws proved (0 s)"
""".replace("CALLS", " ".join(CALLS))
FILES = ["include/foil.h", "lib/libfoil.a", "lib/libfoil.so", "lib/pkgconfig/foil.pc"]


@unittest.skipUnless(shutil.which("cc") and shutil.which("nm"), "there is no cc and nm")
class Build(unittest.TestCase):
    def setUp(self):
        self.scratch = Scratch(210)
        self.addCleanup(self.scratch.remove)
        self.out = self.scratch.root.parent / "out"
        self.scratch.write("hosts/c/foil.h", HEADER.read_text(encoding="utf-8"))
        shutil.copy(program.ROOT / "hosts" / "build", self.scratch.root / "hosts")
        crates = self.scratch.root / "crates.txt"
        self.scratch.write("crates.txt", crates.read_text() + "host: foil laws\nhost_c staticlib: host\n")
        self.scratch.write("crates/host/src/lib.rt", "// the calls\n")
        self.scratch.write("crates/host_c/src/lib.rt", "// the same for C\n")
        self.scratch.write("../tools/rt", RT).chmod(0o755)

    def build(self, *words, **how):
        """Builds into the folder: the status, and what was said."""
        status, out, err = self.scratch.run("hosts/build", *(words or [self.out]), **how)
        if status == 0:
            self.assertEqual(sorted(out.split()), [str(self.out / name) for name in FILES])
            self.assertIn(self.scratch.sum().encode(), (self.out / "lib" / "libfoil.a").read_bytes())
            self.assertIn(self.scratch.sum().encode(), (self.out / "lib" / "libfoil.so").read_bytes())
        return status, err

    def test_what_is_put(self):
        self.assertEqual(0, self.build()[0])
        found = sorted(str(path.relative_to(self.out)) for path in self.out.rglob("*") if path.is_file())
        self.assertEqual(FILES, found)
        listed = subprocess.run(["nm", "-D", "--defined-only", "--format=posix", self.out / "lib" / "libfoil.so"],
                                stdout=subprocess.PIPE, text=True, check=True).stdout
        self.assertEqual(CALLS, sorted(line.split()[0] for line in listed.splitlines()))
        self.assertEqual(15, len(CALLS))

    def test_nothing_is_proved_twice(self):
        self.assertEqual(0, self.build()[0])
        self.assertEqual(["staticlib host"], self.scratch.calls())
        self.assertEqual(0, self.build()[0])
        self.assertEqual(0, self.build(with_rt=False)[0])
        self.assertEqual([], self.scratch.calls())

    def test_200_changed_files(self):
        self.assertEqual(0, self.build()[0])
        proofs = sorted(self.scratch.root.joinpath("crates", "laws", "proofs").rglob("*.antt"))
        for path in proofs[:200]:
            path.write_text("-- another law\n")
        self.scratch.calls()
        self.assertEqual(0, self.build()[0])
        self.assertEqual(["staticlib host"], self.scratch.calls())

    def test_another_archive_or_toolchain(self):
        self.assertEqual(0, self.build()[0])
        archive = self.scratch.root / "target" / "staticlib" / "libhost.a"
        for harm in (lambda: archive.write_bytes(archive.read_bytes() + b"\n"), archive.unlink,
                     lambda: self.scratch.write("../tools/version", "a kit 2\n")):
            harm()
            self.scratch.calls()
            self.assertEqual(0, self.build()[0])
            self.assertEqual(["staticlib host"], self.scratch.calls())

    def test_not_proved(self):
        self.scratch.write("../tools/fails", "error: a law does not hold\n")
        status, err = self.build()
        self.assertEqual(5, status)
        self.assertIn("a law does not hold", err)
        self.assertIn("`rt staticlib host` ended with status 1", err)
        self.assertFalse(self.out.exists())

    def test_no_toolchain(self):
        status, err = self.build(with_rt=False)
        self.assertEqual((5, True), (status, "`rt` is not in the PATH" in err))
        self.assertFalse(self.out.exists())

    def test_misused(self):
        for words in (["a", "b"], ["--nothing"]):
            self.assertEqual(4, self.build(*words)[0])
        self.assertEqual([], self.scratch.calls())
