"""The sheet that jobs give: whichever way it was come by, it is the one on which they were run from nothing."""
import unittest

from desk import job as jobs
from desk.tests import given as random_jobs
from screen.bench import Bench
from screen.tests import given

FULL = [[jobs.Step("patch", (2 * at, 2 * at, 2 * at + 1, 2 * at + 1))] for at in range(140)]


def job_of(records):
    """The job of records."""
    return b"".join(jobs.record_bytes(record) for record in records) + b"\0"


@given.with_library
class Sheets(unittest.TestCase):
    def setUp(self):
        self.bench = Bench(given.FOUND)

    def change(self, chance, made):
        """Changes the records of a foil: longer, shorter, others, none, a board that is refused."""
        k, how = chance.randrange(8), chance.randrange(10)
        if how < 5 and made[k]:
            more = random_jobs.random_records(chance)[0][1:] or [jobs.Step("lift", (chance.randint(1, 9),))]
            made[k] = made[k] + [more]
        elif how < 6 and made[k]:
            made[k] = made[k][:-1] or None
        elif how < 7:
            made[k] = None
        elif how < 8:
            made[k] = [[jobs.Step("board", (300, 300, 0))]] + FULL[:chance.choice((60, 100, 128, 140))]
        elif how < 9:
            made[k] = random_jobs.random_records(chance)
        else:
            made[k] = [[jobs.Step("board", (0, 5, 0))]]

    def held(self, bench):
        """All that the foils hold."""
        return [ran and ran.held for ran in bench.runs], [foil.entries for foil in bench.sheet.foils], [
            foil.board for foil in bench.sheet.foils]

    def test_random_changes(self):
        for chance in given.chances(12):
            made, seen = [None] * 8, []
            for _ in range(25):
                self.change(chance, made)
                if chance.random() < 0.3 and seen:
                    made = list(chance.choice(seen[-10:]))
                seen.append(list(made))
                wanted = tuple(records and job_of(records) for records in made)
                self.bench.set_jobs(wanted)
                fresh = Bench(self.bench.library)
                fresh.run_all(wanted)
                self.assertEqual(self.held(self.bench), self.held(fresh))

    def test_a_job_that_becomes_too_long(self):
        lift = [[jobs.Step("lift", (1,))]]
        short = [[jobs.Step("board", (9, 9, 0))]] + lift * 19_996
        long = short + lift * 2
        self.bench.set_jobs((job_of(short),) + (None,) * 7)
        self.assertTrue(self.bench.runs[0].held["board"])
        self.bench.set_jobs((job_of(long),) + (None,) * 7)
        self.assertEqual(self.bench.runs[0].held["lines"], ["file 18"])
        self.assertIsNone(self.bench.runs[0].held["board"])

    def test_jobs_by_themselves(self):
        for chance in given.chances(30):
            records = random_jobs.random_records(chance)
            cut = chance.randint(1, len(records))
            base, more = (job_of(part)[:-1] for part in (records[:cut], records[cut:]))
            self.bench.bases.pop(base, None)
            fresh = Bench(self.bench.library)
            fresh.run_all((base + more + b"\0",) + (None,) * 7)
            for _ in range(2):
                self.assertEqual(self.bench.alone(base, more), fresh.runs[0].held)
        self.assertEqual(self.bench.jobs, (None,) * 8)
