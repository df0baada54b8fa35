"""What would help with a refused step, in the words of desk/advice.py: the library is asked in the program's stead."""
import collections

from desk import advice, foils, job as jobs, lines
from desk.boxes import area, common

# how many lifts are tried for one picture; how many answers of the library are kept, and how many notes
MOST, KEPT, NOTED = 200, 400, 2000


class Asked(advice.Asked):
    """The library, asked about foils of one job. What it answered before is kept."""

    def __init__(self, library, board, kept):
        super().__init__(None, board)
        self.library, self.kept = library, kept

    def run(self, table, *more):
        """What comes of steps on the foil with this table: their outcomes and the strips, or none."""
        self.left -= 1
        steps = [self.board] + [jobs.Step("leg", (net, *box)) if net else jobs.Step("patch", box) for net, box in table]
        run = self.answer(*(b"".join(jobs.record_bytes([step]) for step in of) for of in (steps, more)))
        if run is None or run.strips is None or any(outcome.said.number for outcome in run.outcomes[:len(steps)]):
            return None
        return run._replace(outcomes=run.outcomes[len(steps):])

    def answer(self, base, more):
        """What came of a job of records and more of them, asked once."""
        made = base + more + b"\0"
        if made not in self.kept:
            held = self.library.alone(base, more)
            strips = held["strips"] if held["ended"] else []
            shown = ["strip %d %d %d %d" % tuple(strips[at:at + 4]) for at in range(0, len(strips), 4)]
            try:
                self.kept[made] = lines.run_of(made, "\n".join(held["lines"] + shown))
            except lines.Strange:
                self.kept[made] = None
            while len(self.kept) > KEPT:
                self.kept.popitem(last=False)
        return self.kept[made]


class Adviser:
    """Gives notes on refused steps."""

    def __init__(self, library):
        self.library = library
        self.kept, self.noted = collections.OrderedDict(), collections.OrderedDict()

    def notes(self, account):
        """What would help with each refused step of a text, by its key: sentences."""
        run, made, left = account.run, {}, MOST
        if account.foil is None or not account.is_done:
            return made
        good, board = account.made_good, run.outcomes[0].step
        for outcome, table in zip(run.outcomes, foils.tables(run)):
            if outcome.said.number:
                case, stead = advice.Case(board, table, account.foil.keys, outcome.step), good.get(outcome.key)
                lifts = len(foils.legs_of(table)) if outcome.said.number == 9 and not stead else 0
                made[outcome.key] = list(self.helping(case, outcome.said.number, not stead, lifts <= left))
                made[outcome.key] += [advice.in_its_stead(stead, account.text)] if stead else []
                left -= lifts if lifts <= left else 0
        return made

    def helping(self, case, number, ask, tried):
        """What would help with a refused step, worked out once: without the library where nothing is to be asked, and
        with lifts that are tried or not."""
        key = (case.board, tuple(case.table), case.step, number, frozenset(case.keys.items()), ask, tried)
        if key not in self.noted:
            asked = Asked(self.library, case.board, self.kept)
            asked.left = MOST if tried else 0
            self.noted[key] = advice.helping(case, number, asked if ask else None)
            while len(self.noted) > NOTED:
                self.noted.popitem(last=False)
        return self.noted[key]

    def here(self, account, step, number, lifts=False):
        """What would help with a step that was refused on the foil as it stands; lifts are tried on demand."""
        if number == 9 and not lifts or step.word not in ("track", "patch", "leg"):
            return []
        case = case_of(account, step)
        asked = Asked(self.library, case.board, self.kept)
        asked.known[tuple(case.table)] = account.run.strips
        return advice.helping(case, number, asked)


def case_of(account, step):
    """A step on the foil as it stands."""
    table = [foils.Entry(net, tuple(box)) for net, *box in account.held["entries"]]
    return advice.Case(account.run.outcomes[0].step, table, account.foil.keys, step)


def blocks(account, point):
    """What blocks a point, by the rule of the desk: the entries, each with whether the point is on it, and whether the
    edge does."""
    case, box = case_of(account, None), advice.point_box(point)
    near = [entry for entry in case.table if advice.blocking.is_near(box, entry, case.pen)]
    return {"blocks": [{"net": entry.net, "box": entry.box, "on": area(common(box, entry.box)) > 0} for entry in near],
            "edge": advice.blocking.past_edge(box, case.size, case.pen)}
