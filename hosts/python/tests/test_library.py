"""Finding the library, and what is the same in Python as in the header."""
import ctypes.util
import os
import pathlib
import re
import shutil
import subprocess
import sys
import tempfile
import unittest
from unittest import mock

import keyfoil
from keyfoil import library, limits
from tests import given


class Loading(unittest.TestCase):
    def test_by_argument(self):
        path = library.found()
        self.assertTrue(keyfoil.Sheet(path).foil(0).new(6, 4).accepted)
        self.assertTrue(keyfoil.Sheet(str(path)).foil(0).new(6, 4).accepted)
        self.assertTrue(keyfoil.Sheet(keyfoil.load(path)).foil(0).new(6, 4).accepted)

    def test_the_argument_comes_before_the_variable(self):
        path = library.found()
        with mock.patch.dict(os.environ, {library.VARIABLE: "nowhere.so"}):
            self.assertTrue(keyfoil.Sheet(path).foil(0).new(6, 4).accepted)
            self.assertRaisesRegex(keyfoil.NoLibrary, "nowhere.so", keyfoil.Sheet)

    def test_not_built(self):
        with mock.patch.dict(os.environ), mock.patch.object(library, "BUILT", given.ROOT / "nowhere" / "libfoil.so"):
            os.environ.pop(library.VARIABLE, None)
            self.assertRaisesRegex(keyfoil.NoLibrary, "hosts/build.*FOIL_LIBRARY", keyfoil.Sheet)

    def test_installed(self):
        """A package under a prefix finds the library of that prefix, wherever under it the package is."""
        with tempfile.TemporaryDirectory() as prefix, mock.patch.dict(os.environ):
            os.environ.pop(library.VARIABLE, None)
            place = pathlib.Path(prefix).resolve() / "lib" / "libfoil.so"
            place.parent.mkdir()
            shutil.copy(library.found(), place)
            for folder in ("lib/foil/hosts/python", "lib/python3.9/site-packages"):
                package = shutil.copytree(pathlib.Path(library.__file__).parent, place.parents[1] / folder / "keyfoil",
                                          ignore=shutil.ignore_patterns("__pycache__"))
                script = "import keyfoil; from keyfoil import library; print(library.found()); keyfoil.Sheet()"
                done = subprocess.run([sys.executable, "-B", "-c", script], cwd=package.parent, text=True,
                                      stdout=subprocess.PIPE, stderr=subprocess.STDOUT)
                self.assertEqual(done.stdout, f"{place}\n")
            place.unlink()
            done = subprocess.run([sys.executable, "-B", "-c", script], cwd=package.parent, text=True,
                                  stdout=subprocess.PIPE, stderr=subprocess.STDOUT)
            self.assertIn("name libfoil.so by FOIL_LIBRARY", done.stdout)

    def test_no_library(self):
        with tempfile.NamedTemporaryFile(suffix=".so") as file:
            file.write(b"no library")
            file.flush()
            self.assertRaisesRegex(keyfoil.NoLibrary, "cannot be loaded", keyfoil.load, file.name)

    def test_another_library(self):
        import _ctypes
        self.assertRaisesRegex(keyfoil.NoLibrary, "is no libfoil.so", keyfoil.load, _ctypes.__file__)


class Header(unittest.TestCase):
    """The header's names, numbers and parameters."""

    @classmethod
    def setUpClass(cls):
        cls.text = given.HEADER.read_text(encoding="utf-8")

    def test_refusals(self):
        body = re.search(r"enum foil_refusal \{(.*?)\};", self.text, re.DOTALL).group(1)
        named = {name: int(number) for name, number in re.findall(r"FOIL_(\w+) = (\d+)", body)}
        self.assertEqual(named, {refusal.name: int(refusal) for refusal in keyfoil.Refusal})
        self.assertEqual(list(range(24)), sorted(named.values()))

    def test_sizes(self):
        for name, size in (("FOILS", limits.FOILS), ("PLACES", limits.PLACES), ("ENTRIES", limits.ENTRIES),
                           ("SURE", limits.SURE), ("STRIPS", limits.STRIPS), ("CORNERS", limits.CORNERS),
                           ("WISHES", limits.WISHES), ("REPORT", limits.REPORT), ("SLIP_LINE", limits.SLIP_LINE)):
            self.assertIn("FOIL_%s = %d" % (name, size), self.text)
        self.assertIn("FOIL_STACK = %d * 1024 * 1024" % (limits.STACK >> 20), self.text)

    def test_calls(self):
        """Each call of the header with as many parameters."""
        declared = {name: words.count(",") + 1 for name, words in
                    re.findall(r"^struct \w+ (foil_\w+)\((.*?)\);", self.text, re.DOTALL | re.MULTILINE)}
        self.assertEqual(declared, {name: len(parameters) for name, (_, parameters) in library.CALLS.items()})

    def test_structs(self):
        """The structs' numbers, by name and in order."""
        for struct in (library.BoardStruct, library.OldBoardStruct, library.EntryStruct, library.SaidStruct,
                       library.RecordStruct, library.InkStruct, library.ResistanceStruct):
            body = re.search(r"^%s \{(.*?)^\};" % struct.__doc__, self.text, re.DOTALL | re.MULTILINE).group(1)
            names = [name for line in re.findall(r"(?:struct )?\w+ ([\w, ]+);", body) for name in line.split(", ")]
            self.assertEqual([name for name, *_ in struct._fields_], names)
