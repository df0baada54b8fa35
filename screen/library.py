"""The library's process, as the server sees it. It is asked one question at a time; where it ends or does not answer,
that is raised as Unasked, and the next question finds a new process, to which the jobs of the order are given first."""
import json
import os
import pathlib
import select
import subprocess
import sys
import threading
import time

from desk import building
from desk.lines import Strange
from desk.program import INSTALLED, ROOT, NotRun

PROCESS = pathlib.Path(__file__).resolve().parent / "process.py"
VARIABLE = "FOIL_LIBRARY"
# how long a question may take, in seconds
LONGEST = 60


class Unasked(Exception):
    """The library could not be asked: why."""


class Wrong(Exception):
    """A number does not fit what a call takes: which."""


def built():
    """The path of libfoil.so, built from the sources as they stand: by hosts/build, unless it is installed or named."""
    if os.environ.get(VARIABLE):
        return pathlib.Path(os.environ[VARIABLE])
    if INSTALLED:
        return as_installed(ROOT.parent / "libfoil.so")
    done = subprocess.run([ROOT / "hosts" / "build"], stdin=subprocess.DEVNULL, stdout=subprocess.PIPE)
    if done.returncode != 0:
        raise NotRun("the library is not built: hosts/build ended with status %d" % done.returncode)
    return ROOT / "target" / "hosts" / "lib" / "libfoil.so"


def as_installed(path):
    """Sees that an installed library is the one that was installed."""
    kept = ROOT / "built" / "libfoil.so"
    if not path.is_file() or not kept.is_file() or kept.read_text(encoding="utf-8").strip() != building.digest_of(path):
        raise NotRun("%s is not the library that was installed: install it again, by ./install in a clone" % path)
    return path


class Library:
    """The process of a library at a path."""

    def __init__(self, path, longest=LONGEST):
        self.path, self.longest = path, longest
        self.process, self.generation, self.why = None, 0, ""
        self.jobs, self.held = None, {}
        self.left = b""
        self.lock = threading.RLock()

    @property
    def standing(self):
        """Whether the process is there, as far as is known."""
        return self.process is not None and self.process.poll() is None

    def seen(self):
        """What the page is told of it. Nothing is waited for, and another thread may end it meanwhile."""
        process = self.process
        there = process is not None and process.poll() is None
        why = "" if there else self.why or (ended(process) if process else "it is not started yet")
        return {"generation": self.generation, "pid": process.pid if there else None, "standing": there, "why": why}

    def set_jobs(self, jobs):
        """Has the sheet that these jobs give: what each foil holds, by foil."""
        with self.lock:
            self.start()
            if self.jobs != jobs:
                before, self.jobs = self.held if self.jobs is not None else {}, None
                fresh = self.put({"ask": "jobs", "jobs": [job if job is None else job.hex() for job in jobs]})
                held = {k: before[k] for k in before if jobs[k] is not None}
                held.update({int(k): ran for k, ran in fresh.items()})
                self.jobs, self.held = jobs, held
            return self.held

    def ask(self, jobs, question):
        """The answer to a question about the sheet that these jobs give."""
        with self.lock:
            self.set_jobs(jobs)
            return self.put(question)

    def alone(self, base, more):
        """What comes of a job on a sheet of its own: of records, more of them, and the end mark."""
        with self.lock:
            self.start()
            return self.put({"ask": "alone", "base": base.hex(), "more": more.hex()})

    def start(self):
        """Starts the process, where there is none."""
        if self.standing:
            return
        self.stop()
        try:
            self.process = subprocess.Popen([sys.executable, "-B", str(PROCESS), str(self.path)], stdin=subprocess.PIPE,
                                            stdout=subprocess.PIPE, bufsize=0, start_new_session=True)
        except OSError as fault:
            self.fail("the library's process cannot be started: %s" % fault.strerror)
        self.generation += 1
        self.why = ""
        absent = self.told()["absent"]
        if absent:
            self.fail(absent)

    def stop(self):
        """Ends the process."""
        if self.process is not None:
            self.process.kill()
            self.process.wait()
            self.process.stdin.close()
            self.process.stdout.close()
        self.process, self.jobs, self.held, self.left = None, None, {}, b""

    def put(self, question):
        """Puts a question: the answer."""
        left = memoryview(json.dumps(question).encode() + b"\n")
        try:
            while left:
                left = left[self.process.stdin.write(left):]
        except OSError:
            self.fail(ended(self.process))
        told = self.told()
        if "wrong" in told:
            raise Wrong(told["wrong"])
        if "strange" in told:
            raise Strange(told["strange"])
        return told["answer"]

    def told(self):
        """What the process says next."""
        try:
            return json.loads(self.line(time.monotonic() + self.longest))
        except ValueError:
            self.fail("the library's process has written something that is no answer, and was ended")

    def line(self, until):
        """The next line of the process."""
        while b"\n" not in self.left:
            ready, _, _ = select.select([self.process.stdout], [], [], max(0, until - time.monotonic()))
            if not ready:
                self.fail("the library has not answered within %g seconds, and was ended" % self.longest)
            got = os.read(self.process.stdout.fileno(), 1 << 20)
            if not got:
                self.fail(ended(self.process))
            self.left += got
        line, _, self.left = self.left.partition(b"\n")
        return line

    def fail(self, why):
        """The library could not be asked."""
        self.stop()
        self.why = why
        raise Unasked(why)


def ended(process):
    """How the process ended."""
    try:
        status = process.wait(5)
    except subprocess.TimeoutExpired:
        return "the library's process has closed its output"
    return "the library's process was ended by signal %d" % -status if status < 0 else (
        "the library's process ended with status %d" % status)
