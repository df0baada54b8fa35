"""What the tests are given: the samples, random jobs, and the job program where it is there."""
import os
import pathlib
import random
import tempfile
import unittest

from desk import foils, job, lines, program, textform

SAMPLES = program.ROOT / "samples"
NAMES = sorted(path.stem for path in SAMPLES.glob("*.txt"))
BUILT = pathlib.Path(os.environ.get("FOIL_JOB") or program.ROOT / "target" / "bin" / "job_main")

NOT_BUILT = "the job program is not built (%s): ./foil-job builds it, or FOIL_JOB names another" % BUILT
with_program = unittest.skipUnless(os.access(BUILT, os.X_OK), NOT_BUILT)


def text_of(name):
    """A sample's text."""
    return SAMPLES.joinpath(name + ".txt").read_text(encoding="utf-8")


def written_for(name):
    """The lines that a sample's job writes."""
    return SAMPLES.joinpath(name + ".out").read_text(encoding="ascii")


def run_of(name):
    """What came of a sample, by its stored lines."""
    return lines.run_of(textform.read(text_of(name)).job, written_for(name))


def foil_of(text):
    """The foil that a text leaves, by the job program."""
    made = textform.read(text).job
    return foils.foil_of(lines.run_of(made, program.run(BUILT, made)))


def random_step(chance, word, largest):
    """A step with numbers up to a largest one; a board with a reach or a pen."""
    count = len(textform.NAMES[word])
    if word == "board":
        size, gap = (chance.randint(1, largest), chance.randint(1, largest)), chance.randint(0, 3)
        return job.Step(word, size + chance.choice([(gap,), (0, chance.randint(0, 2), gap)]))
    if word in ("patch", "leg"):
        x0, y0 = chance.randint(0, largest - 1), chance.randint(0, largest - 1)
        x1, y1 = x0 + chance.randint(1, 3), y0 + 1
        return job.Step(word, (() if word == "patch" else (chance.randint(1, 9),)) + (x0, y0, x1, y1))
    return job.Step(word, (chance.randint(1, 9),) + tuple(chance.randint(0, largest) for _ in range(count - 1)))


def random_records(chance, largest=20, most=12):
    """The steps of a job, record by record: a board in the first one, then any."""
    records = []
    for at in range(chance.randint(1, most)):
        words = [word for word in textform.ORDER[1:] if chance.random() < 0.4]
        if at == 0:
            words = ["board"] + words
        if words:
            records.append([random_step(chance, word, largest) for word in words])
    return records


def random_text(chance, **sizes):
    """A job as a text, with remarks and blanks strewn over it."""
    shown = []
    for record in random_records(chance, **sizes):
        shown.append(chance.choice(["", "# a remark", "   "]))
        steps = [textform.step_text(step) for step in record]
        shown.append(chance.choice([", ", ",", " ,  "]).join(steps) + chance.choice(["", "  # why, not", "   "]))
    return "\n".join(shown + ["end", ""])


def plain_text(text):
    """A text without its remarks and blanks."""
    records = [line.split("#")[0].split(",") for line in text.splitlines()]
    said = [", ".join(" ".join(step.split()) for step in steps) for steps in records]
    return [line for line in said if line]


def random_file(chance):
    """The bytes of a job, whole or damaged: cut, with a byte changed, or with bytes after it."""
    made = bytearray(b"".join(job.record_bytes(record) for record in random_records(chance)) + b"\0")
    harm = chance.randrange(5)
    if harm == 0:
        del made[chance.randrange(len(made)):]
    elif harm == 1:
        made[chance.randrange(len(made))] = chance.randrange(256)
    elif harm == 2:
        made += bytes(chance.randrange(256) for _ in range(chance.randint(1, 4)))
    elif harm == 3:
        return bytes(chance.randrange(chance.choice([64, 64, 256])) for _ in range(chance.randrange(40)))
    return bytes(made)


def seeds(count):
    """So many sources of chance, the same ones at each run."""
    return [random.Random(seed) for seed in range(count)]


def replay(written, said=""):
    """A program that writes these lines whatever it reads, and says these on standard error: its path, and the folder
    that it goes away with."""
    folder = tempfile.TemporaryDirectory()
    path = pathlib.Path(folder.name) / "replay"
    path.with_name("lines").write_text(written)
    path.with_name("said").write_text(said)
    path.write_text('#!/bin/sh\ncat > /dev/null\ncd "$(dirname "$0")"\ncat lines\ncat said >&2\n')
    path.chmod(0o755)
    return path, folder
