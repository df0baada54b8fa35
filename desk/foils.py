"""The foil that a job leaves, as the plotter would draw it: patches, tracks by net, and what was refused and is open.

It is made from the job's steps and the program's lines: an accepted patch, track or leg is put into the table, and an
accepted lift takes its net out."""
from typing import NamedTuple

from desk import boxes

# the number of a track whose net was on the foil already: a track of that net that is laid later does not stand for it
TAKEN = 5


class Entry(NamedTuple):
    """An entry of the table: its net, 0 for a patch, and its box."""
    net: int
    box: tuple


class Net(NamedTuple):
    """A track on the foil: its net, the boxes of its legs, its bends and length, its ends where the job laid it, and
    its name."""
    net: int
    legs: list
    bends: int
    length: int
    ends: tuple
    name: str = ""


class Refused(NamedTuple):
    """A track that was refused: its net, its points, the number, and its name."""
    net: int
    start: tuple
    end: tuple
    number: int
    name: str = ""


class Missing(NamedTuple):
    """A patch or a leg that was refused: its net, 0 for a patch, its four numbers, the refusal's, and its name."""
    net: int
    box: tuple
    number: int
    name: str = ""

    @property
    def called(self):
        """What it is, with its net."""
        return "leg %d" % self.net if self.net else "patch"


class Foil(NamedTuple):
    """A foil: its size, the pen's half width and gap, what is on it, what was refused and is open, its free strips
    where known, and the names of patches by their boxes."""
    width: int
    height: int
    half: int
    gap: int
    patches: list
    nets: list
    refused: list
    strips: list
    missing: list
    keys: dict

    @property
    def entries(self):
        """How many entries its table has."""
        return len(self.patches) + sum(len(net.legs) for net in self.nets)


def tables(run):
    """The table before each step of a run that was done, and after the last."""
    made = [[]]
    for _, step, said in run.outcomes:
        if said:
            made.append(table_after(made[-1], step, said))
    return made


def table_after(table, step, said):
    """The table after a step."""
    if said.number or step.word == "board":
        return table
    if step.word == "lift":
        return [entry for entry in table if entry.net != step.net]
    legs = boxes_of(said.corners) if step.word == "track" else [step.numbers[-4:]]
    return table + [Entry(step.net or 0, box) for box in legs]


def legs_of(table):
    """The nets of a table in its order, each with the boxes of its legs."""
    legs = {}
    for net, box in table:
        if net:
            legs.setdefault(net, []).append(box)
    return legs


def foil_of(run, names={}):
    """The foil that a run leaves; none where no board was accepted. `names` has those of steps, by place and word."""
    done = [outcome for outcome in run.outcomes if outcome.said]
    if not done or done[0].said.number:
        return None
    table, called = tables(run)[-1], called_by(run, names)
    ends = {outcome.step.net: (outcome.said.corners[0], outcome.said.corners[-1]) for outcome in standing(run)}
    named = {outcome.step.net: called[outcome.key] for outcome in done
             if outcome.step.word in ("track", "leg") and not outcome.said.number}
    nets = [Net(net, legs, len(legs) - 1, sum(map(steps_in, legs)), ends.get(net), named[net])
            for net, legs in legs_of(table).items()]
    keys = {outcome.step.numbers: called[outcome.key] for outcome in done
            if outcome.step.word == "patch" and called[outcome.key]}
    refused = [Refused(outcome.step.net, *points_of(outcome.step), outcome.said.number, called[outcome.key])
               for outcome in left_open(run)]
    width, height = done[0].step.numbers[:2]
    return Foil(width, height, *done[0].step.pen, [box for net, box in table if not net], nets, refused, run.strips,
                missing_of(done, table, called), keys)


def called_by(run, names):
    """The name of each step, by its key: its own, or for one of a net the last that was given to that."""
    called, of_net = {}, {}
    for outcome in run.outcomes:
        name, net = names.get(outcome.key, ""), outcome.step.net
        if net is not None:
            name = of_net[net] = name or of_net.get(net, "")
        called[outcome.key] = name
    return called


def standing(run):
    """The outcomes of the tracks that are on the foil at the end as they were laid."""
    laid = {}
    for outcome in run.outcomes:
        if outcome.said and not outcome.said.number:
            if outcome.step.word == "track":
                laid[outcome.step.net] = outcome
            elif outcome.step.word == "lift":
                laid.pop(outcome.step.net, None)
    return list(laid.values())


class Stead(NamedTuple):
    """What is on the foil at the end in the stead of a refused track: a net, and the place where it was laid, if it is
    the track's own that was laid later; otherwise a net with both the track's points on its legs."""
    net: int
    place: int = None


def made_good(run):
    """What is on the foil in the stead of each refused track that is not open, by its key. A net that is on the foil at
    the end was laid after a track of its number was refused, unless that was for its being there."""
    legs = legs_of(tables(run)[-1])
    laid = {outcome.step.net: outcome for outcome in standing(run)}
    good = {}
    for outcome in run.refused:
        if outcome.step.word == "track":
            joining = [net for net, of in legs.items() if all(is_on(of, end) for end in points_of(outcome.step))]
            later = laid.get(outcome.step.net)
            if later and outcome.said.number != TAKEN:
                good[outcome.key] = Stead(later.step.net, later.place)
            elif joining:
                good[outcome.key] = Stead(joining[0])
    return good


def left_open(run):
    """The outcomes of refused tracks that no net on the foil stands for."""
    good = made_good(run)
    return [outcome for outcome in run.refused if outcome.step.word == "track" and outcome.key not in good]


def missing_of(done, table, called):
    """The patches and legs that were refused and are not in the table at the end."""
    refused = [(outcome.step.net or 0, outcome.step.numbers[-4:], outcome) for outcome in done
               if outcome.said.number and outcome.step.word in ("patch", "leg")]
    return [Missing(net, box, outcome.said.number, called[outcome.key])
            for net, box, outcome in refused if Entry(net, box) not in table]


def points_of(track):
    """The two points of a step that lays a track."""
    _, sx, sy, tx, ty = track.numbers
    return (sx, sy), (tx, ty)


def is_on(legs, point):
    """Whether a point is on one of these legs."""
    x, y = point
    return any(boxes.area(boxes.common(leg, (x, y, x + 1, y + 1))) for leg in legs)


def boxes_of(corners):
    """The boxes of a track's legs, or the one point of a track that has no other."""
    pairs = list(zip(corners, corners[1:])) or [corners * 2]
    return [(min(a, c), min(b, d), max(a, c) + 1, max(b, d) + 1) for (a, b), (c, d) in pairs]


def steps_in(leg):
    """The steps of a leg: its points less one."""
    x0, y0, x1, y1 = leg
    return (x1 - x0 - 1) + (y1 - y0 - 1)
