"""The time that proving will still take."""
import pathlib
import tempfile
import unittest
from unittest import mock

from desk import forecast

NEEDS = {"laws": [], "zones": ["laws"], "paths": ["laws"], "foil": ["zones", "paths"], "job": ["foil"]}
SECONDS = {"laws": 10.0, "zones": 30.0, "paths": 50.0, "foil": 20.0, "job": 5.0}


class Times(unittest.TestCase):
    def test_each_waits_for_what_it_stands_on(self) -> None:
        self.assertEqual(forecast.time_for(SECONDS, NEEDS, 2), 10 + 50 + 20 + 5)
        self.assertEqual(forecast.time_for(SECONDS, NEEDS, 1), sum(SECONDS.values()))
        self.assertEqual(forecast.time_for({}, NEEDS, 2), 0)

    def test_what_is_left_goes_by_the_pace_of_what_is_done(self) -> None:
        with mock.patch.object(forecast, "seconds_of", return_value=SECONDS), \
                mock.patch.object(forecast, "workers", return_value=2):
            run = forecast.Forecast(list(SECONDS), NEEDS)
        self.assertEqual(run.left(list(SECONDS), {}, 0.0), 85)
        self.assertEqual(run.left(["foil", "job"], {}, 60.0), 25)
        self.assertEqual(run.left(["foil", "job"], {}, 120.0), 50, "half as fast")
        self.assertAlmostEqual(run.left(["foil", "job"], {"foil": 15.0}, 65.0), 10 * 65 / 75)
        self.assertGreater(run.left(["foil", "job"], {"foil": 99.0}, 65.0), 4, "a crate that takes longer than it did")

    def test_a_list_of_seconds(self) -> None:
        with tempfile.TemporaryDirectory() as folder:
            path = pathlib.Path(folder, "seconds")
            self.assertEqual(forecast.seconds_of(path), {})
            path.write_text("# of the gate\nlaws 3\nzones 7.5\n")
            self.assertEqual(forecast.seconds_of(path), {"laws": 3.0, "zones": 7.5})
            path.write_text("laws three\n")
            self.assertEqual(forecast.seconds_of(path), {})

    def test_every_listed_time_is_of_a_crate(self) -> None:
        crates = {path.name for path in forecast.ROOT.joinpath("crates").iterdir()}
        self.assertEqual(set(forecast.seconds_of()) - crates, set())


if __name__ == "__main__":
    unittest.main()
