"""The bytes of a job: the checks of a file, in the router's order."""
import unittest

from desk import job
from desk.tests import given


class Files(unittest.TestCase):
    def test_numbers_of_files(self):
        for shown, number in (
                ("", 14), ("00", 16), ("0000", 16), ("40", 15), ("c1", 15), ("02", 16), ("01", 14), ("0100000000", 14),
                ("0106000400000000", 0), ("0106000400000001", 16), ("010600040000000000", 17), ("01060004000000", 14),
                ("20000000000000", 16), ("2114001400000002000100", 14), ("211400140000000200010000", 0),
                ("01060004000000220000000001000100000000", 16), ("0106000400000008", 14), ("010600040000000801", 14)):
            with self.subTest(shown):
                self.assertEqual(job.file_number(bytes.fromhex(shown)), number)

    def test_a_file_may_have_60000_bytes(self):
        lift = job.record_bytes([job.Step("lift", (1,))])
        made = job.record_bytes([job.Step("board", (9, 9, 0))]) + lift * 19997 + b"\0"
        self.assertEqual((len(made), job.file_number(made)), (59_999, 0))
        self.assertEqual(job.file_number(made + b"\0"), 17)
        self.assertEqual(job.file_number(made + b"\0\0"), 18)

    def test_numbers_of_the_samples(self):
        for name in given.NAMES:
            last = given.written_for(name).splitlines()[-1].split()
            with self.subTest(name):
                made = given.SAMPLES.joinpath(name + ".job").read_bytes()
                if given.run_of(name).place is not None:
                    self.assertEqual(job.file_number(made), int(last[1]) if last[0] == "file" else 0)

    def test_steps_and_places(self):
        records = job.read(bytes.fromhex("03060004000000020000000300030004050000000000040000000000"[:54])).records
        self.assertEqual([(record.place, record.after) for record in records], [(0, 15), (15, 26), (26, 27)])
        self.assertEqual([step.word for record in records for step in record.steps], ["board", "patch", "track"])
        self.assertEqual(records[1].steps[0], job.Step("track", (5, 0, 0, 4, 0)))

    def test_a_reach_is_a_pen_of_one_point(self):
        self.assertEqual(job.Step("board", (9, 9, 3)).pen, (0, 3))
        self.assertEqual(job.Step("board", (9, 9, 3, 2, 1)).pen, (2, 1))

    def test_records_read_back(self):
        for chance in given.seeds(200):
            records = given.random_records(chance)
            made = b"".join(job.record_bytes(steps) for steps in records) + b"\0"
            self.assertEqual([list(record.steps) for record in job.read(made).records], records + [[]])


if __name__ == "__main__":
    unittest.main()
