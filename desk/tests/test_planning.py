"""Plans: ends by name, what a plan keeps and never loses, floors on stored corpora, and the command. They want the
library, where it is built (hosts/build) or named (FOIL_LIBRARY)."""
import contextlib
import io
import itertools
import os
import pathlib
import random
import signal
import subprocess
import sys
import tempfile
import unittest
from typing import Any

from desk import checks, foils, program, textform
from desk.planning import reading
from desk.tests import given

try:
    import keyfoil
    LIBRARY: Any = keyfoil.load()
    WHY = ""
except Exception as fault:
    LIBRARY, WHY = None, str(fault)
with_library = unittest.skipUnless(LIBRARY, f"the library is not there: {WHY}")

EXAMPLES = program.ROOT / "desk" / "examples"
EXAMPLE = EXAMPLES / "one-row-of-pins.txt"
# of 100 foils each: how many have to come out whole
FLOORS = {"solvable-10": 98, "solvable-20": 98, "reader": 98, "tight-20": 85}


def faults_of(text: str, folder: pathlib.Path = pathlib.Path()) -> list[tuple[int, str]]:
    """What cannot be read of a text."""
    try:
        reading.read(text, folder)
    except textform.Unreadable as unreadable:
        return list(unreadable.faults)
    return []


class Grammar(unittest.TestCase):
    def test_keys_pins_and_wishes(self) -> None:
        read = reading.read('board 60 60 2\nKey "Page on" 5 5 9 9  # big\nkey A 20 5 24 9\npatch 30 5 34 9 # key: B c\n'
                            'pins P 1..3 at 30,50 step 3,0\npins "Pin " 2..1 at 9, 50 step -3,1\npin Q 50 50\n'
                            'connect 1 "Page on" P1 # net: up\nconnect 2 A 12,40\nconnect 3 "B c" "Pin 1"\nend\n')
        self.assertEqual(read.keys, {"Page on": (5, 5, 9, 9), "A": (20, 5, 24, 9), "B c": (30, 5, 34, 9)})
        self.assertEqual(read.pins, {"P1": (30, 50), "P2": (33, 50), "P3": (36, 50), "Pin 2": (9, 50),
                                     "Pin 1": (6, 51), "Q": (50, 50)})
        self.assertEqual([wanted.ends for wanted in read.wanted], [("Page on", "P1"), ("A", (12, 40)),
                                                                   ("B c", "Pin 1")])
        plain = "board 60 60 2\npatch 5 5 9 9\npatch 20 5 24 9\npatch 30 5 34 9\nend\n"
        self.assertEqual(read.text.job, textform.read(plain).job)

    def test_a_text_without_such_lines_is_read_as_before(self) -> None:
        for name in given.NAMES:
            self.assertEqual(reading.read(given.text_of(name)).text, textform.read(given.text_of(name)))

    def test_what_cannot_be_read_is_told_by_its_line(self) -> None:
        for line, message in (
                ("key A 1 2 3", "words after `key`: 4, not 5: key NAME X0 Y0 X1 Y1"),
                ("connect 1 Page on P1", "words after `connect`: 4, not 3"),
                ('connect 1 A "B', "a quote that is not closed"),
                ("key A 1 2 3 4, lift 1", "`key` stands on a line of its own"),
                ("connect x A A", "`x` is no whole number"),
                ("pin A;b 1 2", "`A;b` is no name"),
                ('pin "" 1 2', "`` is no name"),
                ("pin " + "a" * 41 + " 1 2", "is no name: it has 1 to 40 printed letters"),
                ("pins P 1..3 at 3,3", "`step DX,DY` is wanted"),
                ("pins P 1..3 at 1,1 step -1,0", "`-1` is no whole number"),
                ("pins P 1..999 at 1,1 step 1,0", "999 pins, and a foil has room for 128"),
                ("pins P", "not understood: pins NAME FIRST..LAST at X,Y step DX,DY"),
                ("keys from", "the name of one file is wanted"),
                ("keys from there-is-none.csv", "there-is-none.csv cannot be read: No such file"),
                ("connect 1 Q1 3,3", "`Q1` is no key, no pin and no point X,Y: is it `Q`?"),
                ("key Q 1 2 3 4", "`Q` is the name of another key or pin"),
                ("keyx 1", "`keyx` is none of the words")):
            with self.subTest(line):
                (number, told), = faults_of(f"board 9 9 0\npin Q 5 5\n\n{line}\nend\n")
                self.assertEqual(number, 4)
                self.assertIn(message, told)

    def test_keys_and_pins_from_a_csv(self) -> None:
        with tempfile.TemporaryDirectory() as name:
            folder = pathlib.Path(name)
            folder.joinpath("keys.csv").write_bytes(b'\xef\xbb\xbfName,x0,y0,x1,y1\r\n"Page on",5,5,9,9\r\n'
                                                    b'\r\nA,20,5,24,9\r\n')
            folder.joinpath("pins.csv").write_text("P1;30;50\nP2;33;50\n")
            text = "board 60 60 2\nkeys from keys.csv\npins from pins.csv\nconnect 1 A P2\nend\n"
            read = reading.read(text, folder)
            self.assertEqual((read.keys, read.pins), ({"Page on": (5, 5, 9, 9), "A": (20, 5, 24, 9)},
                                                      {"P1": (30, 50), "P2": (33, 50)}))
            self.assertEqual(read.lines[1:4], ["# keys from keys.csv", 'key "Page on" 5 5 9 9', "key A 20 5 24 9"])
            folder.joinpath("keys.csv").write_text("A,1,2,3\nB,1,2,3,4\nC,1,2,x,4\n")
            (number, told), = faults_of(text.replace("connect 1 A P2\n", ""), folder)
            self.assertEqual((number, told), (2, "keys.csv, line 1: values: 4, not 5: name,x0,y0,x1,y1; "
                                                 "keys.csv, line 3: `x` is no whole number from 0 to 65535"))
            # a line behind what a file has put in keeps its own number
            faults = faults_of("board 9 9 0\npins from pins.csv\nlift\nend\n", folder)
            self.assertEqual([number for number, _ in faults], [3])


@with_library
class Plans(unittest.TestCase):
    def plan(self, text: str, **how: Any) -> Any:
        from desk.planning import plans
        return plans.plan(text, library=LIBRARY, **how)

    def foil_of(self, text: str) -> Any:
        """The foil that a planned text leaves, by the library."""
        from desk.planning import trial
        run = trial.run_of(reading.read(text).text.job, LIBRARY)
        return foils.foil_of(run), run

    def test_the_examples_are_whole_at_the_first_plan(self) -> None:
        for path in (EXAMPLE, EXAMPLES / "twelve-keys.txt"):
            text = path.read_text()
            planned = self.plan(text)
            self.assertEqual((planned.wanted, planned.after.tracks, planned.open), (12, 12, []))
            foil, run = self.foil_of(planned.text)
            self.assertEqual((run.refused, checks.findings(foil)), ([], []))
            kept = [line for line in text.splitlines() if not line.startswith("connect")]
            left = [line for line in planned.text.splitlines() if not line.startswith(("track", "leg"))]
            self.assertEqual(left, kept)
        # README's first example: as many bends as the sample that was laid by hand, reader-keys, and no leg
        self.assertEqual((planned.after.bends, planned.by_legs), (9, 0))

    def test_tracks_end_beside_their_keys_and_at_their_pins(self) -> None:
        text = EXAMPLE.read_text()
        read, (foil, _) = reading.read(text), self.foil_of(self.plan(text).text)
        legs = {net.net: net.legs for net in foil.nets}
        for wanted in read.wanted:
            key, pin = wanted.ends
            x0, y0, x1, y1 = read.keys[key]
            beside = [(x, y) for x in (x0 - 3, x1 + 2) for y in range(y0, y1)]
            beside += [(x, y) for y in (y0 - 3, y1 + 2) for x in range(x0, x1)]
            self.assertTrue(any(foils.is_on(legs[wanted.net], point) for point in beside), wanted)
            self.assertTrue(foils.is_on(legs[wanted.net], read.pins[pin]), wanted)

    @given.with_program
    def test_a_plan_is_replayed_by_the_job_program_byte_for_byte(self) -> None:
        from desk.tests import corpora
        for text in [EXAMPLE.read_text()] + [foil.text for foil in corpora.stored("tight-20")[:6]]:
            job = reading.read(self.plan(text, calls=3000).text).text.job
            foil = keyfoil.Sheet().foil(0)
            shown = []
            for outcome in self.foil_of(self.plan(text, calls=3000).text)[1].outcomes:
                said = outcome.said
                net = [] if said.net is None else [str(said.net)]
                way = [str(said.bends), *("%d,%d" % corner for corner in said.corners)] if said.corners else []
                shown.append(" ".join([said.word, *net, str(said.number), *way]))
            foil.run_job(job)
            shown += ["strip %d %d %d %d" % strip for strip in foil.strips]
            self.assertEqual(program.run(given.BUILT, job), "".join(line + "\n" for line in shown))

    def test_kept_nets_patches_and_saved_legs_are_never_touched(self) -> None:
        from desk.tests import corpora
        for seed, foil in enumerate(corpora.stored("solvable-10")[:20]):
            chance = random.Random(seed)
            rows = [line + ("  # keep" if line.startswith("track") and chance.random() < 0.4 else "")
                    for line in foil.text.splitlines()]
            text = "\n".join(rows + [""])
            before, run = self.foil_of(text)
            keep = {int(row.split()[1]) for row in rows if row.endswith("# keep")} & {net.net for net in before.nets}
            planned = self.plan(text, calls=2000)
            after, _ = self.foil_of(planned.text)
            ways = {net.net: sorted(net.legs) for net in after.nets}
            self.assertEqual({net.net: sorted(net.legs) for net in before.nets if net.net in keep},
                             {net: legs for net, legs in ways.items() if net in keep})
            self.assertEqual(before.patches, after.patches)
            self.assertGreaterEqual(len(after.nets), len(before.nets))
            stay = [net for net in before.nets if net.net in keep]
            legs = ["leg %d %d %d %d %d" % (net.net, *leg) for net in stay for leg in net.legs]
            saved = [row for row in rows if not row.endswith("# keep")][:-1] + legs + ["end", ""]
            again, _ = self.foil_of(self.plan("\n".join(saved), calls=2000).text)
            for net in before.nets:
                if net.net in keep:
                    self.assertEqual(sorted(net.legs), sorted(next(n.legs for n in again.nets if n.net == net.net)))

    def test_never_worse_than_given(self) -> None:
        for seed, chance in enumerate(given.seeds(150)):
            text = given.random_text(chance, largest=24, most=10)
            before, run = self.foil_of(text)
            if before is None or run.strips is None:
                continue
            planned = self.plan(text, calls=400)
            after, _ = self.foil_of(planned.text)
            self.assertGreaterEqual(len(after.nets), len(before.nets), f"seed {seed}")
            self.assertGreaterEqual(set(after.patches), set(before.patches), f"seed {seed}")

    def test_small_foils_beside_all_orders(self) -> None:
        for seed in range(25):
            chance = random.Random(seed)
            points = chance.sample([(x, y) for x in range(1, 9) for y in range(1, 9)], 8)
            tracks = ["track %d %d %d %d %d" % (net + 1, *points[2 * net], *points[2 * net + 1]) for net in range(4)]
            best = max((len(foil.nets), -sum(net.bends for net in foil.nets)) for foil in (
                self.foil_of("\n".join(["board 10 10 1", *order, "end", ""]))[0]
                for order in itertools.permutations(tracks)))
            planned = self.plan("\n".join(["board 10 10 1", *tracks, "end", ""]), calls=2000)
            self.assertGreaterEqual(planned.after.tracks, best[0], f"seed {seed}")
            if planned.after.tracks == best[0]:
                self.assertLessEqual(planned.after.bends, -best[1] + 2, f"seed {seed}")

    def test_floors(self) -> None:
        from desk.planning import plans
        from desk.tests import corpora
        for name, floor in FLOORS.items():
            whole = []

            def follow(progress: Any) -> None:
                whole[-1] = progress.tracks == progress.wanted

            for foil in corpora.stored(name):
                whole.append(False)
                planner = plans.Planner(reading.read(foil.text), LIBRARY)
                planner.searched(plans.CALLS, follow, lambda: whole[-1])
            self.assertEqual(len(whole), 100)
            self.assertGreaterEqual(sum(whole), floor, name)

    def test_stored_corpora_are_those_of_their_seeds(self) -> None:
        from desk.tests import corpora
        for name, seeds in (("reader", 20), ("solvable-10", 5), ("solvable-20", 2), ("tight-20", 1)):
            self.assertEqual([corpora.makers()[name](seed) for seed in range(seeds)], corpora.stored(name)[:seeds])

    def test_what_cannot_be_is_said_by_name(self) -> None:
        board = "board 40 40 2\n"
        for text, why in (
                # shut in between two keys and the edges: a key of the whole width, 3 points from another
                ('key "Page on" 0 0 40 10\nkey "Page back" 0 13 40 20\npin P 20 30\nconnect 1 "Page on" P\n',
                 "Page on and Page back are too near for the pen: 3 points, 5 are needed"),
                ("pin A 10 10\npin B 12 10\nconnect 1 A 10,30\nconnect 2 B 30,30\n",
                 "B and A are too near for the pen: 1 point, 2 are needed"),
                ("key K 10 10 20 20\npin P 21 15\nconnect 1 P 5,30\n",
                 "P and K are too near for the pen: 1 point, 2 are needed"),
                ("pin P 1 15\nconnect 1 P 5,30\n", "P and the edge are too near for the pen: 1 point, 2 are needed"),
                ("key K 10 10 20 20\npin P 15 15\nconnect 1 P 5,30\n", "P is on K"),
                ("pin P 60 15\nconnect 1 P 5,30\n", "P is off the foil"),
                ("patch 0 18 40 20\npin P 10 10\nconnect 1 P 10,30\n",
                 "no way leads from P to 10,30, whatever is laid"),
                ("leg 1 5 5 6 20\nconnect 1 10,10 20,20\n", "net 1 has another track")):
            with self.subTest(why):
                planned = self.plan(board + text + "end\n", calls=500)
                self.assertEqual([(one.why, one.impossible) for one in planned.open], [(why, True)])
                self.assertIn(f"open, and cannot be: {why}\nend\n", planned.text)
                # the open wish is a line that is read again, and stays open for the same reason
                self.assertEqual(self.plan(planned.text, calls=500).open, planned.open)

    def test_pins_are_kept_free(self) -> None:
        # a straight way from 5,20 to 35,20 would lie on the pin, which no wish ends at
        planned = self.plan("board 40 40 2\npin P 20 20\nconnect 1 5,20 35,20\nend\n")
        foil, _ = self.foil_of(planned.text)
        (net,) = foil.nets
        self.assertGreater(net.bends, 0)
        for x0, y0, x1, y1 in net.legs:
            self.assertFalse(x0 - 2 <= 20 < x1 + 2 and y0 - 2 <= 20 < y1 + 2)

    def test_a_key_may_be_met_twice_and_two_keys_are_joined(self) -> None:
        planned = self.plan("board 60 60 1\nkey A 10 10 20 20\nkey B 40 40 50 50\npin P 30 55\n"
                            "connect 1 A P\nconnect 2 A B\nend\n")
        self.assertEqual((planned.after.tracks, planned.open), (2, []))

    def test_a_plan_is_stopped_and_its_budget_kept(self) -> None:
        from desk.tests import corpora
        text = corpora.stored("tight-20")[0].text
        for calls in (1, 7, 60, 400):
            planned = self.plan(text, calls=calls)
            self.assertLessEqual(planned.calls, calls)
        steps = iter(range(10 ** 9))
        planned = self.plan(text, stop=lambda: next(steps) > 300)
        self.assertLessEqual((planned.stopped, planned.calls), (True, 301))
        self.assertGreaterEqual(planned.after.tracks, 10)

    def test_planning_a_plan_changes_nothing(self) -> None:
        planned = self.plan(EXAMPLE.read_text())
        self.assertEqual(self.plan(planned.text).text, planned.text)

    def test_two_hash_seeds_one_plan(self) -> None:
        script = ("import sys; sys.path[0:1] = sys.argv[1:3]\n"
                  "from desk.planning import plans\nfrom desk.tests import corpora\n"
                  "for text in [open(sys.argv[3]).read()] + [foil.text for foil in corpora.stored('tight-20')[:4]]:\n"
                  "    print(plans.plan(text, calls=3000).text)\n")
        paths = [str(program.ROOT), str(program.ROOT / "hosts" / "python"), str(EXAMPLE)]
        words = [sys.executable, "-B", "-c", script, *paths]
        shown = {subprocess.run(words, env={**os.environ, "PYTHONHASHSEED": seed}, stdout=subprocess.PIPE,
                                check=True).stdout for seed in ("1", "2")}
        self.assertEqual(len(shown), 1)


@with_library
class Command(unittest.TestCase):
    def setUp(self) -> None:
        folder = tempfile.TemporaryDirectory()
        self.addCleanup(folder.cleanup)
        self.folder = pathlib.Path(folder.name)

    def foil_plan(self, *words: Any) -> tuple[int, str, str]:
        """Runs the command: its status, its output, and what it says on standard error."""
        from unittest import mock
        from desk.planning import command
        out, err = io.StringIO(), io.StringIO()
        with contextlib.redirect_stdout(out), contextlib.redirect_stderr(err), mock.patch(
                "screen.library.built", return_value=LIBRARY):
            status = command.main([str(word) for word in words])
        return status, out.getvalue(), err.getvalue()

    def text(self, content: str) -> pathlib.Path:
        path = self.folder / "a.txt"
        path.write_text(content)
        return path

    def test_status_and_files(self) -> None:
        new = self.folder / "new.txt"
        path = self.text(EXAMPLE.read_text())
        status, out, err = self.foil_plan(path)
        self.assertEqual((status, path.read_text()), (0, EXAMPLE.read_text()))
        self.assertIn("12 of 12 tracks", err)
        self.assertEqual(self.foil_plan("-o", new, path)[:2], (0, ""))
        self.assertEqual(new.read_text(), out)
        self.assertEqual(self.foil_plan("-o", path, path)[0], 4)
        self.assertEqual(path.read_text(), EXAMPLE.read_text())
        self.assertEqual(self.foil_plan("--in-place", path)[:2], (0, ""))
        self.assertEqual(path.read_text(), out)
        self.assertEqual(sorted(each.name for each in self.folder.iterdir()), ["a.txt", "new.txt"])

    def test_open_wishes_and_faults_have_their_status(self) -> None:
        self.assertEqual(self.foil_plan(self.text("board 9 9 0\nconnect 1 1,1 20,1\nend\n"))[0], 1)
        for text in ("board 9 9 0\nconnect 1 A B\nend\n", "board 9 9 0\n", "board 0 9 0\nend\n",
                     "board 9 9 0\nbytes 04\nend\n"):
            status, out, err = self.foil_plan(self.text(text))
            self.assertEqual((status, out), (2, ""), text)
            self.assertTrue(err)
        self.assertEqual(self.foil_plan("--calls", "0", self.text("board 9 9 0\nend\n"))[0], 4)
        self.assertEqual(self.foil_plan("-o", self.folder / "no" / "such", self.text("board 9 9 0\nend\n"))[0], 4)

    def test_the_keyboard_ends_the_search_and_the_best_so_far_is_given_out(self) -> None:
        from unittest import mock
        from desk.planning import command
        from desk.tests import corpora
        path = self.text(corpora.stored("tight-20")[8].text)

        def pressed(shown: Any, progress: Any) -> None:
            signal.raise_signal(signal.SIGINT)

        with mock.patch.object(command.Shown, "follow", pressed):
            status, out, err = self.foil_plan("--calls", 100_000_000, path)
        self.assertEqual(status, 1)
        self.assertIn("stopped)", err)
        self.assertGreaterEqual(out.count("track "), 10)
        self.assertEqual(out.count("\nend\n"), 1)

    def test_damaged_texts_leave_no_traceback_and_no_part_of_a_file(self) -> None:
        whole, new = EXAMPLE.read_text(), self.folder / "new.txt"
        for seed in range(60):
            chance = random.Random(seed)
            letters = list(whole)
            for _ in range(chance.randint(1, 6)):
                place = chance.randrange(len(letters))
                letters[place:place + chance.randint(0, 3)] = chance.choice(
                    ['"', ",", "#", "-", "99999", "\n", "", "\u201c", "key ", "connect 1 ", ".."])
            status, out, err = self.foil_plan("--calls", "150", "-o", new, self.text("".join(letters)))
            self.assertIn(status, (0, 1, 2), f"seed {seed}: {err}")
            self.assertNotIn("mistake in the desk", err, f"seed {seed}")
            self.assertEqual(new.exists(), status != 2, f"seed {seed}")
            if new.exists():
                reading.read(new.read_text())
                new.unlink()


class Others(unittest.TestCase):
    def test_a_text_with_wishes_is_no_job_yet(self) -> None:
        from desk import sources, statuses
        source = sources.Source(None, b"board 9 9 0\nconnect 1 1,1 5,1\nend\n")
        with self.assertRaises(statuses.Unread) as raised:
            source.text()
        self.assertIn("./foil-plan makes tracks of them", str(raised.exception))

    def test_a_text_with_keys_and_pins_alone_is_a_job(self) -> None:
        from desk import sources
        text = sources.Source(None, b"board 9 9 0\nkey A 1 1 3 3\npin P 5 5\nend\n").text()
        self.assertEqual(text.job, textform.read("board 9 9 0\npatch 1 1 3 3\nend\n").job)
        self.assertEqual([line.number for line in text.lines], [1, 2, 4])
