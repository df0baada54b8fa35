"""The proved programs: whether they are those of the sources as they stand, and proving and building them where not.

A program that was built has a record, target/built/NAME: the digest of the sources that it was proved from, its own
digest, and the toolchain. A program whose record does not fit what stands there now is removed and built anew, with its
stamp: `rt` asks no stamp whether the program beside it is the one that was built. One run builds at a time.

Where the tools are installed there are no sources: programs and records are those that ./install put there, and nothing
is ever built."""
import collections
import contextlib
import fcntl
import hashlib
import os
import shutil
import subprocess
from typing import NamedTuple

from desk import console
from desk.program import INSTALLED, ROOT, NotRun
from desk.progress import Progress

# what a program is proved from, in each crate that it stands on
PARTS = ("src", "specs", "proofs")
# the toolchain that these sources are proved by
KIT = ROOT / "tools" / "KIT-ID"
# what proves and builds, with `rt`
MAKE = ROOT / "tools" / "make"
# what a run holds that builds: it stands beside target/
LOCK = ROOT / "target.lock"
WAITS = "another run is proving and building here: this one waits for it, and then goes on"
# what the status of a check that failed says, and how many of its last lines are told
FAILED = {1: "something is not proved", 2: "the toolchain failed", 3: "the prover could not tell"}
TOLD = 20


class Record(NamedTuple):
    """What a program was built from and is: a digest of its sources, its own digest, and the toolchain's identity."""
    sources: str
    program: str
    toolchain: str

    def fits(self, now):
        """Whether it is what stands there now. Where there is no toolchain to ask, that is not held against it."""
        return self[:2] == now[:2] and now.toolchain in (None, self.toolchain)


class Place(NamedTuple):
    """Where the things of a program are."""
    name: str

    @property
    def program(self):
        return (ROOT if INSTALLED else ROOT / "target") / "bin" / self.name

    @property
    def record(self):
        return (ROOT if INSTALLED else ROOT / "target") / "built" / self.name

    @property
    def stamp(self):
        return ROOT / "target" / "stamp" / self.name


def listed():
    """The crates of the repository, each with what it depends on."""
    crates = {}
    for line in ROOT.joinpath("crates.txt").read_text(encoding="utf-8").splitlines():
        name, colon, needs = line.split("#")[0].partition(":")
        if colon:
            crates[name.split()[0]] = needs.split()
    return crates


def needed(names, crates):
    """The crates that these stand on, themselves among them, sorted."""
    found, left = set(), list(names)
    while left:
        name = left.pop()
        if name in crates and name not in found:
            found.add(name)
            left += crates[name]
    return sorted(found)


def digest_of(path):
    """The digest of a file."""
    return hashlib.sha256(path.read_bytes()).hexdigest()


def crate_digest(name, needs):
    """The digest of a crate: what it depends on, and the names and contents of its files."""
    folder = ROOT / "crates" / name
    rows = ["%s: %s" % (name, " ".join(needs))]
    for path in sorted(path for part in PARTS for path in folder.joinpath(part).rglob("*") if path.is_file()):
        rows.append("%s %s" % (digest_of(path), ascii(str(path.relative_to(folder)))))
    return hashlib.sha256("\n".join(rows).encode()).hexdigest()


def toolchain():
    """The identity of the toolchain, none where `rt` is not in the PATH."""
    if not shutil.which("rt"):
        return None
    asked = subprocess.run(["rt", "version"], stdin=subprocess.DEVNULL, stdout=subprocess.PIPE, text=True)
    if asked.returncode != 0:
        raise NotRun("`rt version` ended with status %d" % asked.returncode)
    return " ".join(asked.stdout.split())


def standing(names):
    """What stands there now of these programs: a record for each."""
    crates, version = listed(), toolchain()
    digests = {crate: crate_digest(crate, crates[crate]) for crate in needed(names, crates)}
    records = {}
    for name in names:
        if name not in crates:
            raise NotRun("crates.txt has no %s" % name)
        sources = hashlib.sha256("\n".join(digests[crate] for crate in needed([name], crates)).encode()).hexdigest()
        program = Place(name).program
        records[name] = Record(sources, digest_of(program) if os.access(program, os.X_OK) else "", version)
    return records


def recorded(name):
    """The record of a program; none where it has none that can be read."""
    try:
        return Record(*Place(name).record.read_text(encoding="utf-8").splitlines())
    except (OSError, TypeError, UnicodeDecodeError):
        return None


def stale(now):
    """The programs that are to be built anew."""
    return [name for name, record in now.items()
            if not record.program or recorded(name) is None or not recorded(name).fits(record)]


def wanted():
    """The toolchain that is asked for."""
    return " ".join(KIT.read_text(encoding="utf-8").split())


def another(version):
    """What is to be said of a toolchain that is not the one that is asked for."""
    return "this repository asks for the toolchain `%s`, and `rt version` says `%s`" % (wanted(), version)


def built(*names):
    """The paths of these programs, each proved from the sources as they stand, or as they were installed."""
    if INSTALLED:
        for name in names:
            as_installed(name)
    elif stale(standing(names)):
        try:
            with alone() as lock:
                build(names, lock)
        except OSError as fault:
            raise NotRun("%s cannot be built: %s: %s" % (" and ".join(names), fault.filename, fault.strerror))
    return [Place(name).program for name in names]


def as_installed(name):
    """Sees that an installed program is the one that was installed."""
    path, record = Place(name).program, recorded(name)
    if not os.access(path, os.X_OK) or not record or record.program != digest_of(path):
        raise NotRun("%s is not the program that was installed: install it again, by ./install in a clone" % path)


@contextlib.contextmanager
def alone():
    """Holds the lock, once no other run does. The check is handed it too, so that it is held as long as either runs."""
    with open(LOCK, "a", encoding="utf-8") as lock:
        try:
            fcntl.flock(lock, fcntl.LOCK_EX | fcntl.LOCK_NB)
        except BlockingIOError:
            console.complain(WAITS)
            fcntl.flock(lock, fcntl.LOCK_EX)
        yield lock


def build(names, lock):
    """Builds those of the programs that are stale, and again those whose sources changed meanwhile."""
    while True:
        now = standing(names)
        anew = stale(now)
        if not anew:
            return
        if now[anew[0]].toolchain is None:
            raise NotRun("%s to be proved and built first, which wants Rattle's toolchain (%s): `rt` is not in the PATH"
                         % (anew[0] + " has" if len(anew) == 1 else " and ".join(anew) + " have", wanted()))
        if now[anew[0]].toolchain != wanted():
            console.complain(another(now[anew[0]].toolchain) + ": what is proved is then proved by that one")
        for name in anew:
            for path in (Place(name).record, Place(name).program, Place(name).stamp):
                path.unlink(missing_ok=True)
        check(anew, lock)
        for name in anew:
            keep_record(name, now[name])


def keep_record(name, before):
    """Records that a program was built from what stood there before."""
    place = Place(name)
    if not os.access(place.program, os.X_OK):
        raise NotRun("`rt check %s` was content, and left no program" % name)
    place.record.parent.mkdir(parents=True, exist_ok=True)
    half = place.record.with_suffix(".new")
    half.write_text("\n".join(before._replace(program=digest_of(place.program))) + "\n", encoding="utf-8")
    half.replace(place.record)


def check(names, lock, verb="check"):
    """Has programs proved and built, or by `staticlib` a library. How far that is goes to standard error."""
    log = ROOT / "target" / "built" / "log"
    log.parent.mkdir(parents=True, exist_ok=True)
    last = collections.deque(maxlen=TOLD)
    with open(log, "w", encoding="utf-8") as kept, subprocess.Popen(
            [MAKE, verb, *names], cwd=ROOT, stdin=subprocess.DEVNULL, stdout=subprocess.PIPE,
            stderr=subprocess.STDOUT, encoding="utf-8", errors="replace", pass_fds=[lock.fileno()]) as running:
        crates = listed()
        with Progress(needed(names, crates), crates, ROOT / "target" / "log") as shown:
            for line in running.stdout:
                kept.write(line)
                last.append(line.rstrip("\n"))
                shown.follow(line)
    if running.returncode != 0:
        last.append("%s not built: %s (`rt %s %s` ended with status %d; all that it said is in %s)" % (
            names[0] + " is" if len(names) == 1 else "they are", FAILED.get(running.returncode, "the check failed"),
            verb, " ".join(names), running.returncode, log))
        raise NotRun("\n".join(last))
