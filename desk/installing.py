"""The command ./install: proves and builds the programs and the library once, and puts them under a folder with the
desk's commands, the header and the pages. What is installed never proves.

    PREFIX/bin                the commands, as links to those in lib/foil
    PREFIX/lib, include       libfoil.a, libfoil.so, pkgconfig/foil.pc and foil.h
    PREFIX/lib/foil           the commands, the desk's tools, the screen, the proved programs and their records
    PREFIX/share/doc/foil     README, docs and samples
    PREFIX/share/man/man1     a page for each command: its help"""
import os
import pathlib
import shutil
import subprocess

from desk import building, console, outputs, statuses
from desk.arguments import Parser
from desk.program import ROOT, NotRun

HELP = """Proves and builds the programs and the library, once, and puts them under PREFIX with the desk's commands, the
header and the pages. That takes some minutes, unless they are built already; a line on standard error says how far it
is. What is installed never proves, and does not need this clone or the toolchain.

Where something stands already that ./install has put there, it is put anew; nothing else is written over. The toolchain
that is asked for is named in tools/KIT-ID."""
PROGRAMS = ("job_main", "save_main", "slip_main", "ohms_main")
# where the library is built, and the files that hosts/build puts there
BUILT = ROOT / "target" / "install"
LIBRARY = ("lib/libfoil.a", "lib/libfoil.so", "lib/pkgconfig/foil.pc", "include/foil.h")
OWN, PAGES, MANUAL = map(pathlib.Path, ("lib/foil", "share/doc/foil", "share/man/man1"))
# what of the desk's tools is of use in a clone alone
NOT_INSTALLED = ("tests", "test", "installing.py", "__pycache__")
# the file that says of a folder that it was put there by this command
MARK = "installed"


def main(given=None):
    """The command, by its words: its status."""
    return statuses.ended(lambda: do(given))


def do(given):
    """Does what is asked: the status."""
    parser = Parser("install", HELP)
    parser.add_argument("--any-kit", action="store_true", help="prove by another toolchain than tools/KIT-ID asks for")
    parser.add_argument("prefix", metavar="PREFIX", type=pathlib.Path, help="the folder, as in ~/.local or /usr/local")
    asked = parser.parse_args(given)
    prefix = asked.prefix.absolute()
    refuse(prefix)
    ask_toolchain(asked.any_kit)
    for folder in (prefix / "bin", prefix / OWN, prefix / PAGES, prefix / MANUAL):
        folder.mkdir(parents=True, exist_ok=True)
        with open(folder / ".try", "w", encoding="utf-8"):
            folder.joinpath(".try").unlink()
    building.built(*PROGRAMS)
    console.complain("the programs are proved and built")
    build_library()
    console.complain("the library is proved and built")
    put_own(prefix)
    put_library(prefix)
    put_pages(prefix)
    console.put(told(prefix))
    return statuses.ACCEPTED


def commands():
    """The names of the desk's commands."""
    return sorted(path.name for path in ROOT.glob("foil*") if path.is_file() and os.access(path, os.X_OK))


def refuse(prefix):
    """Refuses a folder in which something would be written over that ./install has not put there."""
    if os.path.realpath(prefix) == str(ROOT):
        raise statuses.Misused("PREFIX is this clone: name another folder")
    for folder in (prefix / OWN, prefix / PAGES):
        if folder.exists() and any(folder.iterdir()) and not folder.joinpath(MARK).is_file():
            raise statuses.Misused("%s is there, and ./install has not put it there" % folder)
    theirs = [prefix / name for name in LIBRARY if not prefix.joinpath(OWN, MARK).is_file()]
    theirs += [prefix / "bin" / name for name in commands() if not is_link(prefix / "bin" / name)]
    for path in theirs:
        if os.path.lexists(path):
            raise statuses.Misused("%s is there, and ./install has not put it there" % path)


def linked(name):
    """Where the link of a command leads, from PREFIX/bin."""
    return os.path.join("..", OWN, name)


def is_link(path):
    """Whether a path is the link of a command."""
    return path.is_symlink() and os.readlink(path) == linked(path.name)


def ask_toolchain(any_kit):
    """Names the toolchain, and refuses another than the one that is asked for."""
    version = building.toolchain()
    if version is None:
        raise NotRun("`rt` is not in the PATH: ./install wants Rattle's toolchain, `%s`" % building.wanted())
    if version != building.wanted() and not any_kit:
        raise NotRun(building.another(version) + "; --any-kit goes on with that one")
    console.complain("the toolchain is %s" % version)


def build_library():
    """Has the library built, in the clone."""
    shutil.rmtree(BUILT, ignore_errors=True)
    done = subprocess.run([ROOT / "hosts" / "build", BUILT], stdin=subprocess.DEVNULL, stdout=subprocess.PIPE)
    missing = [name for name in LIBRARY if not BUILT.joinpath(name).is_file()]
    if done.returncode != 0 or missing:
        raise NotRun("the library is not built: hosts/build ended with status %d%s" % (
            done.returncode, "".join(", without " + name for name in missing)))


def put_library(prefix):
    """Puts the library: each file is made beside its place, so that a program which has the old one keeps it."""
    for name in LIBRARY:
        path = prefix / name
        path.parent.mkdir(parents=True, exist_ok=True)
        shutil.copy(BUILT / name, path.with_name(path.name + ".new")).replace(path)


def put_own(prefix):
    """Puts the commands, the tools and the programs, and then the links."""
    with Renewed(prefix / OWN) as folder:
        for name in commands():
            shutil.copy(ROOT / name, folder)
        shutil.copy(ROOT / "README.md", folder)
        for name in ("desk", "screen", "hosts/python/keyfoil"):
            shutil.copytree(ROOT / name, folder / name, ignore=shutil.ignore_patterns(*NOT_INSTALLED))
        for part in ("bin", "built"):
            folder.joinpath(part).mkdir()
        digest = building.digest_of(BUILT / "lib" / "libfoil.so")
        folder.joinpath("built", "libfoil.so").write_text(digest + "\n", encoding="utf-8")
        for name in PROGRAMS:
            shutil.copy(building.Place(name).program, folder / "bin")
            shutil.copy(building.Place(name).record, folder / "built")
    for name in commands():
        half = prefix / "bin" / (name + ".new")
        half.unlink(missing_ok=True)
        half.symlink_to(linked(name))
        half.replace(prefix / "bin" / name)


def put_pages(prefix):
    """Puts README, docs, samples, and the manual's pages."""
    with Renewed(prefix / PAGES) as folder:
        shutil.copy(ROOT / "README.md", folder)
        shutil.copytree(ROOT / "docs", folder / "docs")
        shutil.copytree(ROOT / "samples", folder / "samples", ignore=shutil.ignore_patterns("make"))
    for name in commands():
        outputs.put(prefix.joinpath(MANUAL, name + ".1"), manual_page(prefix, name).encode())


def manual_page(prefix, name):
    """A command's page of the manual: its help as it stands."""
    shown = subprocess.run([prefix / "bin" / name, "--help"], stdin=subprocess.DEVNULL, stdout=subprocess.PIPE,
                           env={**os.environ, "COLUMNS": "78"}, text=True, check=True).stdout
    lines = [("\\&" if line[:1] in (".", "'") else "") + line.replace("\\", "\\e") for line in shown.splitlines()]
    return ".TH %s 1\n.SH NAME\n%s \\- the key-foil router\n.SH DESCRIPTION\n.nf\n%s\n.fi\n" % (
        name.upper(), name, "\n".join(lines))


class Renewed:
    """A folder that is made anew beside its place, and takes it when all is in it."""

    def __init__(self, place):
        self.place, self.new, self.old = place, place.with_name("foil.new"), place.with_name("foil.old")

    def __enter__(self):
        for folder in (self.new, self.old):
            shutil.rmtree(folder, ignore_errors=True)
        self.new.mkdir(parents=True)
        self.new.joinpath(MARK).write_text("%s\n" % building.toolchain(), encoding="utf-8")
        return self.new

    def __exit__(self, kind, *_):
        if kind:
            shutil.rmtree(self.new, ignore_errors=True)
            return
        self.place.rename(self.old)
        self.new.rename(self.place)
        shutil.rmtree(self.old)


def told(prefix):
    """What was installed."""
    there = str(prefix / "bin") in os.environ.get("PATH", "").split(os.pathsep)
    return "installed under %s:\n    bin: %s%s\n    %s\n    %s, %s\n" % (
        prefix, ", ".join(commands()), "" if there else " (%s is not in the PATH)" % (prefix / "bin"),
        ", ".join(LIBRARY), PAGES, MANUAL)
