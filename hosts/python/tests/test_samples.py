"""The sample jobs, record by record, beside the lines that the job program writes for them."""
import unittest

from keyfoil import Sheet
from tests import given

NETS = {"track": 2, "lift": 3, "leg": 4}
SIZES = (3, 4, 5, 1, 5, 2)


def net_of(job, at, word):
    """The net of a step of the record at a place."""
    before = sum(size for bit, size in enumerate(SIZES[:NETS[word]]) if job[at] >> bit & 1)
    return int.from_bytes(job[at + 1 + 2 * before:at + 3 + 2 * before], "little")


def lines(foil, job):
    """The lines for a job, as docs/JOB.md has them."""
    at = 0
    while at is not None:
        record = foil.run_record(job, at)
        if not record.accepted:
            yield "file %d" % record.refusal
        for word, answer in ((step.word, step.answer) for step in record.steps):
            net = " %d" % net_of(job, at, word) if word in NETS else ""
            way = ""
            if word == "track" and answer.accepted:
                way = " %d" % answer.bends + "".join(" %d,%d" % corner for corner in answer.corners)
            yield "%s%s %d%s" % (word, net, answer.refusal, way)
        if record.end:
            yield from ("strip %d %d %d %d" % strip for strip in foil.strips)
        at = record.next


class Samples(unittest.TestCase):
    def test_samples(self):
        jobs = sorted(given.SAMPLES.glob("*.job"))
        self.assertGreater(len(jobs), 10)
        sheet = Sheet()
        for k, job in enumerate(jobs):
            with self.subTest(job.name):
                told = "".join("%s\n" % line for line in lines(sheet.foil(k % 8), job.read_bytes()))
                self.assertEqual(job.with_suffix(".out").read_text(encoding="ascii"), told)
