"""What would help with a refused step, in words, beside those of README's table: which end of a track is not free, what
blocks it, and the nearest free point; which single lift would open a way.

Free points are those of the strips that the proved program gives, and a lift is tried with it. Both are asked of the
foil as it was when the step was refused, put back entry by entry. Where the program refuses that, or its lines are not
those of the question, nothing is said."""
from typing import NamedTuple

from desk import blocking, boxes, foils, job as jobs, lines, program, words
from desk.blocking import point_box

# how many things in the way are named; how often the program is asked for all steps of a job together
NAMED, MOST = 3, 1000


class Asked:
    """The proved program, asked about foils of one job."""

    def __init__(self, path, board):
        self.path, self.board, self.left, self.known = path, board, MOST, {}

    def run(self, table, *more):
        """What comes of steps on the foil with this table: their outcomes and the strips; none where that is not to be
        had."""
        self.left -= 1
        steps = [self.board] + [jobs.Step("leg", (net, *box)) if net else jobs.Step("patch", box) for net, box in table]
        made = b"".join(jobs.record_bytes([step]) for step in steps + list(more)) + b"\0"
        try:
            run = lines.run_of(made, program.run(self.path, made))
        except lines.Strange:
            return None
        if run.strips is None or any(outcome.said.number for outcome in run.outcomes[:len(steps)]):
            return None
        return run._replace(outcomes=run.outcomes[len(steps):])

    def strips(self, table):
        """The free strips of the foil with this table, or none."""
        key = tuple(table)
        if key not in self.known and self.left > 0:
            run = self.run(table)
            self.known[key] = run and run.strips
        return self.known.get(key)

    def laid_without(self, table, net, track):
        """What is said of a track that is laid after a net is lifted."""
        run = self.run(table, jobs.Step("lift", (net,)), track)
        return run and run.outcomes[1].said


class Case(NamedTuple):
    """A refused step: the foil's board, its table when the step was refused, the names of patches, and the step."""
    board: jobs.Step
    table: list
    keys: dict
    step: jobs.Step

    @property
    def size(self):
        return self.board.numbers[:2]

    @property
    def pen(self):
        return self.board.pen


def notes(text, run, foil, path):
    """What would help with each refused step of a text's job, by its key: sentences."""
    made, good = {}, foils.made_good(run)
    if foil is None or run.strips is None:
        return made
    board = run.outcomes[0].step
    asked = Asked(path, board)
    for outcome, table in zip(run.outcomes, foils.tables(run)):
        if outcome.said.number:
            case, stead = Case(board, table, foil.keys, outcome.step), good.get(outcome.key)
            made[outcome.key] = helping(case, outcome.said.number, None if stead else asked)
            made[outcome.key] += [in_its_stead(stead, text)] if stead else []
    return made


def in_its_stead(stead, text):
    """That a refused track is not open."""
    if stead.place is None:
        return "at the end net %d joins its two points" % stead.net
    return "net %d was laid later, on line %d" % (stead.net, text.line_of(stead.place).number)


def helping(case, number, asked):
    """What would help with a refused step; without the program, where nothing is to be asked."""
    if number == 7:
        return off_the_foil(case)
    if number == 8:
        return not_free(case, asked and asked.strips(case.table))
    if number == 9 and asked:
        return no_way(case, asked)
    if number == 21:
        return crossing(case)
    return []


def ends_of(track):
    """The ends of a track, each with what it is called."""
    return list(zip(("start", "end"), foils.points_of(track)))


def off_the_foil(case):
    """Which end is off the foil."""
    width, height = case.size
    return ["its %s %d,%d is off the foil" % (called, *end) for called, end in ends_of(case.step)
            if end[0] >= width or end[1] >= height]


def not_free(case, strips):
    """Which end is not free and why, and the nearest free point, where the strips are known."""
    said = []
    for called, end in ends_of(case.step):
        near = in_the_way(case, end)
        if near:
            free = nearest(end, strips) if strips else None
            told = "; the nearest free point is %d,%d" % free if free else "; no point is free" if strips == [] else ""
            said.append("its %s %d,%d is %s%s" % (called, *end, near, told))
    return said


def in_the_way(case, point):
    """What blocks a point, in words; empty where nothing does."""
    box, near = point_box(point), {}
    for entry in case.table:
        if blocking.is_near(box, entry, case.pen):
            name = called(entry, case.keys)
            near[name] = near.get(name, False) or boxes.area(boxes.common(box, entry.box)) > 0
    found = ["on " + name for name, on in near.items() if on]
    found += ["too near the edge"] if blocking.past_edge(box, case.size, case.pen) else []
    return words.listed(found + ["too near " + name for name, on in near.items() if not on], NAMED)


def called(entry, keys):
    """An entry in words: its net, or where the patch is and its name."""
    if entry.net:
        return "net %d" % entry.net
    return "the patch %d %d %d %d" % entry.box + (" (%s)" % keys[entry.box] if keys.get(entry.box) else "")


def nearest(point, strips):
    """The free point that is the fewest steps away; of those the highest, then the leftmost."""
    x, y = point
    inside = [(min(max(x, x0), x1 - 1), min(max(y, y0), y1 - 1)) for x0, y0, x1, y1 in strips]
    return min(inside, key=lambda free: (abs(free[0] - x) + abs(free[1] - y), free[1], free[0]))


def no_way(case, asked):
    """Which single lift would open a way."""
    nets = sorted(foils.legs_of(case.table))
    if not nets:
        return ["there is no track to lift: patches and the edge part its two points"]
    if asked.left < len(nets):
        return ["lifts were not tried, after so many"]
    said = [(net, asked.laid_without(case.table, net, case.step)) for net in nets]
    opening = ["%d (%s, length %d)" % (net, words.count(told.bends, "bend"), told.length)
               for net, told in said if told and not told.number]
    if not opening:
        return ["no lift of a single net opens a way"]
    if len(opening) == 1:
        return ["a lift of net %s opens a way" % opening[0]]
    return ["a lift of one of these nets opens a way: " + ", ".join(opening)]


def crossing(case):
    """Which legs a patch would block, or which patches block a leg."""
    entries = blocking.crossed(case.step.numbers[-4:], case.step.word == "patch", case.table, case.pen)
    against = list(dict.fromkeys(called(entry, case.keys) for entry in entries))
    return ["it is too near " + words.listed(against, NAMED)] if against else []
