"""./install, with a toolchain that stands for `rt` and a script that stands for hosts/build: what it puts where, that
nothing else is written over, and that what is installed never proves."""
import os
import pathlib
import re
import shutil
import subprocess
import sys
import unittest

from desk import building, program
from desk.tests import given
from desk.tests.scratch import Scratch

# what stands for hosts/build: it is slow to prove nothing, and leaves the files
LIBRARY = """#!/bin/sh
[ ! -f "$(dirname "$0")/fails" ] || exit 5
mkdir -p "$1/lib/pkgconfig" "$1/include"
for name in lib/libfoil.a lib/libfoil.so lib/pkgconfig/foil.pc include/foil.h; do echo "$name" > "$1/$name"; done
"""
SCRIPT = '#!/bin/sh\ncat > /dev/null\nprintf \'%s\'\n'
COMMANDS = ["foil", "foil-job", "foil-ohms", "foil-save", "foil-screen", "foil-slip"]


class Installing(unittest.TestCase):
    def setUp(self):
        self.scratch = Scratch(
            job_main=SCRIPT % given.written_for("document-01").replace("\n", "\\n"),
            slip_main=SCRIPT % "  5    3      10     0     0    \\n", save_main=SCRIPT % "!",
            ohms_main=SCRIPT % "ohms 5 0 4026000000000000\\n")
        self.addCleanup(self.scratch.remove)
        shutil.copy(program.ROOT / "install", self.scratch.root)
        for name in ("docs", "samples"):
            shutil.copytree(program.ROOT / name, self.scratch.root / name)
        self.scratch.write("hosts/build", LIBRARY).chmod(0o755)
        self.prefix = self.scratch.root.parent / "usr"

    def install(self, *words, **how):
        """Installs: the status, what is printed, what is said."""
        return self.scratch.run("install", *words, self.prefix, **how)

    def installed(self, name, *words):
        """Runs an installed command, far from any toolchain and from the clone: status, output, standard error."""
        path = os.pathsep.join([str(pathlib.Path(sys.executable).parent), "/usr/bin", "/bin"])
        done = subprocess.run([self.prefix / "bin" / name, *words], cwd="/", capture_output=True, text=True,
                              stdin=subprocess.DEVNULL, env={"PATH": path})
        return done.returncode, done.stdout, done.stderr

    def tree(self):
        """The files under PREFIX, with their bytes."""
        return {path.relative_to(self.prefix).as_posix(): path.read_bytes()
                for path in sorted(self.prefix.rglob("*")) if path.is_file()}

    def test_all_is_put_under_the_folder(self):
        status, out, err = self.install()
        self.assertEqual(status, 0, err)
        self.assertEqual(self.scratch.calls(), ["check job_main save_main slip_main ohms_main"])
        self.assertIn("the toolchain is a kit 1\n", err)
        self.assertTrue(out.startswith("installed under %s:\n" % self.prefix))
        names = set(self.tree())
        for name in ["lib/libfoil.a", "lib/libfoil.so", "lib/pkgconfig/foil.pc", "include/foil.h",
                     "share/doc/foil/README.md", "share/doc/foil/docs/JOB.md", "share/doc/foil/samples/less-ink.txt",
                     *("bin/" + name for name in COMMANDS), *("share/man/man1/%s.1" % name for name in COMMANDS)]:
            self.assertIn(name, names)
        self.assertFalse([name for name in names if re.search(r"tests|\.(new|old|try)", name)])

    def test_what_is_installed_never_proves(self):
        self.assertEqual(self.install()[0], 0)
        self.scratch.calls()
        shutil.rmtree(self.scratch.root)
        sample = str(given.SAMPLES / "document-01.txt")
        self.assertEqual(self.installed("foil", sample)[::2], (0, ""))
        self.assertEqual(self.installed("foil-job", sample), (0, given.written_for("document-01"), ""))
        self.assertEqual(self.installed("foil-slip", sample), (0, "  5    3      10     0     0    \n", ""))
        self.assertEqual(self.installed("foil-save", sample), (0, "!", ""))
        self.assertEqual(self.installed("foil-ohms", "--sheet=1", "--bend=0", "--exact", sample), (0, "5 11.0\n", ""))
        said = self.installed("foil-slip", "--what")[2].splitlines()
        self.assertEqual(said[-1], "foil-slip --help says how it is used")
        self.assertEqual(self.scratch.calls(), [])

    def test_a_program_that_is_not_the_one_that_was_installed(self):
        self.install()
        path = self.prefix / "lib" / "foil" / "bin" / "job_main"
        whole = path.read_bytes()
        for harm in (lambda: path.write_bytes(whole + b"\n"), path.unlink):
            harm()
            status, out, err = self.installed("foil-job", str(given.SAMPLES / "document-01.txt"))
            self.assertEqual((status, out, "install it again" in err), (5, "", True))

    def test_a_library_that_is_not_the_one_that_was_installed(self):
        self.install()
        self.assertEqual(self.installed("foil-screen", "--help")[0], 0)
        path = self.prefix / "lib" / "libfoil.so"
        for harm in (lambda: path.write_text("another"), path.unlink):
            harm()
            status, out, err = self.installed("foil-screen", "--no-browser", "--orders", str(self.prefix / "orders"))
            self.assertEqual((status, out, "install it again" in err), (5, "", True), err)

    def test_the_package_finds_the_library_under_its_own_prefix(self):
        self.install()
        shutil.rmtree(self.scratch.root)
        done = subprocess.run([sys.executable, "-B", "-c", "from keyfoil import library; print(library.found())"],
                              cwd="/", capture_output=True, text=True,
                              env={"PYTHONPATH": str(self.prefix / "lib" / "foil" / "hosts" / "python")})
        self.assertEqual(done.stdout, "%s\n" % (self.prefix.resolve() / "lib" / "libfoil.so"), done.stderr)

    def test_the_clone_goes_on_by_itself(self):
        self.install()
        self.scratch.calls()
        self.scratch.write("crates/laws/src/lib.rt", "// another\n")
        sample = given.SAMPLES / "document-01.txt"
        self.assertEqual(self.scratch.run("foil-job", sample)[0], 0)
        self.assertEqual(self.scratch.calls(), ["check job_main"])
        self.assertEqual(self.installed("foil-job", str(sample))[0], 0)
        self.assertEqual(self.scratch.calls(), [])

    def test_installed_twice(self):
        self.install()
        first = self.tree()
        self.scratch.calls()
        self.prefix.joinpath("share", "doc", "foil", "docs", "Old.md").write_text("old")
        self.assertEqual(self.install()[0], 0)
        self.assertEqual((self.tree(), self.scratch.calls()), (first, []))

    def test_nothing_else_is_written_over(self):
        for name in ("bin/foil", "bin/foil-ohms", "lib/foil/x", "lib/libfoil.so", "include/foil.h", "share/doc/foil/x"):
            path = self.prefix / name
            path.parent.mkdir(parents=True)
            path.write_text("another's")
            status, out, err = self.install()
            self.assertEqual((status, out, path.read_text(), self.scratch.calls()), (4, "", "another's", []))
            self.assertIn("is there, and ./install has not put it there", err)
            self.assertEqual(len(self.tree()), 1)
            shutil.rmtree(self.prefix)
        self.assertEqual(self.scratch.run("install", self.scratch.root)[0], 4)
        self.prefix.write_text("a file")
        self.assertEqual((self.install()[0], self.scratch.calls()), (4, []))

    def test_the_toolchain_is_asked_for(self):
        status, out, err = self.install(with_rt=False)
        self.assertEqual((status, out, err.count("\n")), (5, "", 1))
        self.assertIn("wants Rattle's toolchain, `a kit 1`", err)
        self.scratch.write("../tools/version", "a kit 2\n")
        status, out, err = self.install()
        self.assertEqual((status, out, self.prefix.exists(), self.scratch.calls()), (5, "", False, []))
        self.assertIn("asks for the toolchain `a kit 1`, and `rt version` says `a kit 2`; --any-kit goes on", err)
        self.assertEqual(self.install("--any-kit")[0], 0)
        self.assertEqual(self.prefix.joinpath("lib", "foil", "installed").read_text(), "a kit 2\n")

    def test_the_toolchain_is_named_where_the_clone_builds_by_another(self):
        self.scratch.write("../tools/version", "a kit 2\n")
        status, _, err = self.scratch.run("tools/built", "job_main")
        self.assertEqual((status, err.splitlines()[0]), (0, "this repository asks for the toolchain `a kit 1`, and `rt "
                         "version` says `a kit 2`: what is proved is then proved by that one"))

    def test_the_kit_has_a_name(self):
        self.assertRegex(building.wanted(), r"^\S+ logic [0-9a-f]{16}$")
        there = building.toolchain()
        if there is not None:
            self.assertEqual(there, building.wanted())

    def test_what_fails_leaves_nothing_that_runs(self):
        self.scratch.write("../tools/fails", "rt: laws NOT PROVED\n")
        status, out, err = self.install()
        self.assertEqual((status, out, self.tree()), (5, "", {}))
        self.assertIn("rt: laws NOT PROVED\nthey are not built: something is not proved", err)
        self.scratch.tools.joinpath("fails").unlink()
        self.scratch.write("hosts/fails", "")
        status, out, err = self.install()
        self.assertEqual((status, out, self.tree()), (5, "", {}))
        self.assertIn("the library is not built: hosts/build ended with status 5", err)
        self.scratch.root.joinpath("hosts", "fails").unlink()
        self.scratch.write("hosts/build", "#!/bin/sh\n")
        status, out, err = self.install()
        self.assertEqual((status, out, self.tree()), (5, "", {}))
        self.assertIn("ended with status 0, without lib/libfoil.a, without lib/libfoil.so", err)
        self.scratch.write("hosts/build", LIBRARY)
        self.assertEqual(self.install()[0], 0)


if __name__ == "__main__":
    unittest.main()
