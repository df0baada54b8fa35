"""The sheet of the order that is open, in the library's own process: the jobs of its foils are run on it, and questions
are put to it. What is tried is tried on a copy.

The sheet is the one on which the jobs were run from nothing, foil 0 first. Where only one foil has changed, and the
sheet's limit on entries cannot have been met, that one alone is run again, and of a job that was made longer the new
records alone. Sheets as the calls have left them are kept for a while, so that an undo runs nothing."""
import collections
import struct
from dataclasses import dataclass, field
from typing import Dict

from keyfoil import FOILS, PLACES, SURE, Sheet

# how many sheets of the order are kept, and how many of jobs that were run by themselves
KEPT, BASES = 40, 12
# the end mark; a longer file is refused as a whole
END, MOST_BYTES = b"\0", 60_000
# the numbers of each bit of a record's map, and the bits that have a net
SIZES = (3, 4, 5, 1, 5, 2)
NETS = {"track": 2, "lift": 3, "leg": 4}


class Disagreed(Exception):
    """Calls do not agree that must: which."""


@dataclass
class Ran:
    """A job that was run on a foil: its lines as docs/JOB.md has them, without the strips; the place of its end mark or
    of what ended it; the most entries that there can have been on the way; whether an answer was 10."""
    job: bytes
    lines: list = field(default_factory=list)
    ended: bool = False
    peak: int = 0
    full: bool = False
    held: dict = field(default_factory=dict)

    def longer(self, job):
        """A run of a longer job, up to where this one ended."""
        return Ran(job, list(self.lines), False, self.peak, self.full)


def net_of(job, at, word):
    """The net of a step of the record at a place."""
    before = sum(size for bit, size in enumerate(SIZES[:NETS[word]]) if job[at] >> bit & 1)
    return struct.unpack_from("<H", job, at + 1 + 2 * before)[0]


def run_from(foil, ran, at):
    """Runs the records of a job from a place on."""
    while at is not None:
        before = foil.board.entries if at else 0
        record = foil.run_record(ran.job, at)
        new = 0
        for step in record.steps:
            ran.lines.append(line_of(ran.job, at, step))
            ran.full = ran.full or step.answer.refusal == 10
            new += max(1, len(getattr(step.answer, "corners", ())))
        if not record.accepted:
            ran.lines.append("file %d" % record.refusal)
        ran.ended = record.end
        ran.peak = max(ran.peak, min(before + new, PLACES))
        at = record.next


def run_on(foil, ran, job):
    """Goes on with a job that was run on a foil, where another job is that one with more records before its end mark;
    none where it is not."""
    if not ran.ended or not job.startswith(ran.job[:-1]) or not len(ran.job) < len(job) <= MOST_BYTES:
        return None
    longer = ran.longer(job)
    run_from(foil, longer, len(ran.job) - 1)
    return longer


def line_of(job, at, step):
    """The line for a step of the record at a place."""
    word, answer = step.word, step.answer
    net = " %d" % net_of(job, at, word) if word in NETS else ""
    way = ""
    if word == "track" and answer.accepted:
        way = " %d" % answer.bends + "".join(" %d,%d" % corner for corner in answer.corners)
    return "%s%s %d%s" % (word, net, answer.refusal, way)


def is_begun(ran):
    """Whether a job has begun its foil."""
    return ran.lines[:1] == ["board 0"]


class Bench:
    """The sheet, the jobs of its foils and what came of each."""

    def __init__(self, library=None):
        self.library = library
        self.sheet = Sheet(library)
        self.jobs = (None,) * FOILS
        self.runs = [None] * FOILS
        self.kept, self.bases = collections.OrderedDict(), collections.OrderedDict()

    # the jobs

    def set_jobs(self, jobs):
        """Has the sheet that these jobs give, one a foil or none: what came of those that were run, by foil."""
        jobs, before = tuple(jobs), list(self.runs)
        if jobs in self.kept:
            lists, self.runs = self.kept[jobs]
            self.kept.move_to_end(jobs)
            self.sheet.lists, self.runs = lists.copy(), list(self.runs)
        elif jobs != self.jobs:
            changed = [k for k in range(FOILS) if jobs[k] != self.jobs[k]]
            if len(changed) != 1 or not self.run_one(changed[0], jobs[changed[0]]):
                self.run_all(jobs)
        self.jobs = jobs
        self.keep()
        return {k: ran.held for k, ran in enumerate(self.runs) if ran is not None and ran is not before[k]}

    def keep(self):
        """Keeps the sheet as it stands."""
        self.kept[self.jobs] = (self.sheet.lists.copy(), list(self.runs))
        while len(self.kept) > KEPT:
            self.kept.popitem(last=False)

    def run_one(self, k, job):
        """Runs the job of one foil: whether the sheet is then the one that all jobs give."""
        if job is None:
            return False
        old, trial = self.runs[k], self.sheet.copy()
        foil = trial.foil(k)
        ran = run_on(foil, old, job) if old else None
        if ran is None:
            ran = Ran(job)
            run_from(foil, ran, 0)
        runs = list(self.runs)
        runs[k] = ran
        if not is_begun(ran) or is_tight(runs) or is_tight(self.runs):
            return False
        ran.held = held(foil, ran)
        self.sheet.lists, self.runs = trial.lists, runs
        return True

    def run_all(self, jobs):
        """Runs all jobs from nothing, foil 0 first."""
        sheet, runs = Sheet(self.library), [None] * FOILS
        for k, job in enumerate(jobs):
            if job is not None:
                runs[k] = Ran(job)
                run_from(sheet.foil(k), runs[k], 0)
        for k, ran in enumerate(runs):
            if ran is not None:
                ran.held = held(sheet.foil(k), ran)
        self.sheet.lists, self.runs = sheet.lists, runs

    def alone(self, base, more):
        """What comes of a job on a sheet of its own: of records, more of them, and the end mark. The sheet that the
        first records leave is kept, for others that begin with them."""
        if base not in self.bases:
            sheet, ran = Sheet(self.library), Ran(base + END)
            run_from(sheet.foil(0), ran, 0)
            self.bases[base] = sheet, ran
            while len(self.bases) > BASES:
                self.bases.popitem(last=False)
        sheet, ran = self.bases[base]
        foil = sheet.copy().foil(0)
        longer = run_on(foil, ran, base + more + END) if more else ran
        if longer is None:
            foil, longer = Sheet(self.library).foil(0), Ran(base + more + END)
            run_from(foil, longer, 0)
        return held(foil, longer)

    # questions

    def look_up(self, k, point):
        """The strip that holds a point."""
        found = self.sheet.foil(k).look_up(point)
        return {"number": int(found.refusal), "place": found.place, "strip": found.strip}

    def find(self, k, start, end, net, ink):
        """The way from a point to another; and what a lay of it would answer, tried on a copy."""
        way = self.sheet.foil(k).find(start, end)
        if not way.accepted:
            return {"number": int(way.refusal)}
        foil = self.sheet.copy().foil(k)
        laid = foil.lay(net, start, end)
        said = told(way, int(laid.refusal))
        if laid.accepted and (laid.corners, laid.bends) != (way.corners, way.bends):
            raise Disagreed("find and lay do not agree on a way")
        return {**said, **(measured(foil, net, ink) if laid.accepted else {})}

    def book(self, k, net, corners, ink):
        """What a booking would give, on a copy: the way, and the foil's entries after it."""
        foil = self.sheet.copy().foil(k)
        return changed_by(foil, net, foil.book(net, corners), ink)

    def join(self, k, net, point, ink):
        """What a join would give, on a copy."""
        foil = self.sheet.copy().foil(k)
        before = length_of(foil, net)
        made = changed_by(foil, net, foil.join(net, point), ink)
        return {**made, "length": made["length"] - before, "net_length": made["length"]} if not made["number"] else made

    def draw(self, k, box):
        """What a patch would be answered, on a copy."""
        return {"number": int(self.sheet.copy().foil(k).draw(*box).refusal)}

    def lay_list(self, k, wishes):
        """What a list of nets would be answered, on a copy; and the foil's entries after it."""
        foil = self.sheet.copy().foil(k)
        said = foil.lay_list([(net, start, end) for net, start, end in wishes])
        return {"number": int(said.refusal), "ways": [told(way, int(way.refusal)) for way in said.nets],
                "entries": foil.entries}

    def opening(self, k, start, end, net):
        """For each net of the foil what the lay is answered after its lift, on a copy."""
        made = []
        for other in self.sheet.foil(k).nets:
            foil = self.sheet.copy().foil(k)
            if foil.lift(other).accepted:
                way = foil.lay(net, start, end)
                length = measured(foil, net, None)["length"] if way.accepted else None
                made.append({"net": other, "number": int(way.refusal), "bends": way.bends, "length": length})
        return made

    def letting(self, k, box):
        """For each net of the foil what a patch is answered after its lift, on a copy."""
        made = []
        for other in self.sheet.foil(k).nets:
            foil = self.sheet.copy().foil(k)
            if foil.lift(other).accepted:
                made.append({"net": other, "number": int(foil.draw(*box).refusal), "bends": None, "length": None})
        return made

    def ohms(self, k, ink):
        """The ohms of each net, or the refusal of each."""
        foil = self.sheet.foil(k)
        said = [(net, foil.ohms(net, ink)) for net in foil.nets]
        return [[net, int(answer.refusal), answer.ohms] for net, answer in said]

    def save(self, k: int) -> Dict[str, object]:
        """The foil as a job file, in hexadecimal, or the refusal."""
        said = self.sheet.foil(k).save()
        return {"number": int(said.refusal), "bytes": said.data.hex() if said.accepted else ""}


def is_tight(runs):
    """Whether these runs may have met the sheet's limit on entries: then their order counts."""
    there = [ran for ran in runs if ran is not None]
    return any(ran.full for ran in there) or (
        sum(max(SURE, ran.peak) for ran in there) + SURE * (FOILS - len(there)) > PLACES)


def held(foil, ran):
    """What a job has left on its foil: its lines, its record, its table, its strips and its slip."""
    if not is_begun(ran):
        return {"lines": ran.lines, "ended": False, "board": None, "entries": [], "strips": [], "slip": ""}
    board = foil.board
    return {"lines": ran.lines, "ended": ran.ended, "board": board[:4], "entries": foil.entries,
            "strips": foil.sheet.lists.strips_of(foil.k)[:4 * board.strips], "slip": slip_of(foil)}


def slip_of(foil):
    """The lines of a foil's slip."""
    slip = foil.slip()
    if not slip.accepted:
        raise Disagreed("the slip of a foil was refused (%d)" % slip.refusal)
    return slip.data.decode("ascii")


def told(way, lay=0):
    """A way in plain numbers; `lay` is what laying it is answered."""
    return {"number": int(way.refusal), "corners": way.corners, "bends": way.bends, "lay": lay}


def measured(foil, net, ink):
    """The length of a net by the slip, and its ohms, where the ink is known."""
    ohms = foil.ohms(net, ink) if ink else None
    return {"length": length_of(foil, net), "ohms": ohms and ohms.ohms}


def length_of(foil, net):
    """The length of a net by the slip; 0 where it is not on the foil."""
    rows = [line.split() for line in slip_of(foil).splitlines()]
    return next((int(row[2]) for row in rows if int(row[0]) == net), 0)


def changed_by(foil, net, way, ink):
    """What a call that lays something has given: the way, its measures, and the entries after it."""
    return {**told(way), **(measured(foil, net, ink) if way.accepted else {}), "entries": foil.entries}
