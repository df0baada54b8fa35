"""The proved programs: running one."""
import pathlib
import subprocess
from typing import NamedTuple

ROOT = pathlib.Path(__file__).resolve().parent.parent
# whether these tools are installed, with their programs, or stand in a clone
INSTALLED = ROOT.joinpath("installed").is_file()


class NotRun(Exception):
    """A program could not be had, or did not come to its end."""


class Written(NamedTuple):
    """What a program wrote: to standard output, and to standard error."""
    out: bytes
    err: str


def written(program, given):
    """What a program writes for what it is given."""
    try:
        done = subprocess.run([program], input=given, stdout=subprocess.PIPE, stderr=subprocess.PIPE)
    except OSError as fault:
        raise NotRun("the program %s cannot be run: %s" % (program, fault.strerror))
    if done.returncode != 0:
        raise NotRun("the program %s ended with status %d" % (pathlib.Path(program).name, done.returncode))
    return Written(done.stdout, done.stderr.decode("ascii", errors="replace"))


def run(program, job):
    """The lines that the job program writes for a job."""
    return written(program, job).out.decode("ascii", errors="replace")
