"""What a text gives to a plan: what of it is never touched, and which tracks are wanted.

The text's job is run as it stands. A track that is on the foil at the end, or that is open, is wanted; one that was
lifted again is not. Patches, saved legs and the nets that are marked (`# keep`) stay as they lie: they are the base of
every plan."""
from typing import Any, NamedTuple, Union

import keyfoil

from desk import boxes, foils, job as jobs, lines, names, textform
from desk.planning import trial
from desk.planning.ends import Box, End, Ends, Point, Way, at, legs
from desk.planning.reading import Reading, Wanted

# the number of a track whose net is on the foil already
TAKEN = 5
KEPT_AS_LEGS = "kept as it lay"


class NoFoil(Exception):
    """A text that leaves no foil, so that nothing can be planned on it: its number, 14 to 18 or of a board."""

    def __init__(self, number: int) -> None:
        super().__init__(f"there is no foil ({number})")
        self.number = number


class Wish(NamedTuple):
    """A track that is wanted: its net and ends, the line `connect` that asks for it, and the remark that goes along."""
    net: int
    ends: Ends
    said: str
    remark: str


class Given(NamedTuple):
    """What a text gives: its wishes, one a net; those whose net is taken by another; the ways that wishes have as the
    text stands; the steps that are never touched, and the lines of the text that are others for that; and whether these
    steps leave by themselves what they leave in the text. They do not where a patch was refused for a track."""
    wishes: list[Wish]
    taken: list[Wish]
    ways: dict[int, Way]
    base: list[jobs.Step]
    changes: dict[int, list[str]]
    steady: bool


def is_kept(remark: str) -> bool:
    """Whether a remark says that a track is kept."""
    return any(part.strip().lower() == "keep" for part in remark.split(";"))


def given(reading: Reading, library: Any = None) -> Given:
    """What a text gives."""
    for line in reading.text.lines:
        if line.said.startswith("bytes"):
            raise textform.Unreadable([(line.number, "`bytes` is for tests: a text that has it is not planned")])
    run = trial.run_of(reading.text.job, library)
    if run.strips is None:
        raise NoFoil((run.fault or run.outcomes[0].said).number)
    found = Found(reading, run, library)
    for outcome in run.outcomes:
        if outcome.step.word == "track":
            found.take_track(outcome)
    for wanted in reading.wanted:
        found.take_wanted(wanted)
    under = Base(reading, found, library)
    base, changes = under.made()
    stays = [tuple(entry) for entry in foils.tables(run)[-1] if entry.net not in found.ways]
    steady = sorted((net, box) for net, box in stays) == sorted((net, tuple(box)) for net, *box in under.foil.entries)
    return Given(found.wishes, found.taken, found.ways, base, changes, steady)


class Found:
    """The wishes of a text, as they are found. `kept` has the ways of tracks that stay, by their places."""

    def __init__(self, reading: Reading, run: lines.Run, library: Any) -> None:
        self.reading = reading
        self.strips = patched(run, library)
        self.pen = run.outcomes[0].step.pen
        self.standing = {outcome.step.net: outcome for outcome in foils.standing(run)}
        self.good = foils.made_good(run)
        self.nets = set(foils.legs_of(foils.tables(run)[-1]))
        self.wishes: list[Wish] = []
        self.taken: list[Wish] = []
        self.ways: dict[int, Way] = {}
        self.kept: dict[int, Way] = {}

    def take_track(self, outcome: lines.Outcome) -> None:
        """Takes a track of the text's own."""
        net, line = outcome.step.net, self.reading.text.line_of(outcome.place)
        if self.standing.get(net) == outcome:
            if is_kept(line.remark):
                self.kept[outcome.place] = outcome.said.corners
                return
            self.ways[net] = outcome.said.corners
        elif not outcome.said.number or self.is_good(outcome):
            return
        start, end = foils.points_of(outcome.step)
        said = f"connect {net} {at(start)} {at(end)}"
        wish = Wish(net, (self.end_at(start), self.end_at(end)), said, track_remark(line))
        if net in self.ways and self.standing.get(net) != outcome:
            self.taken.append(wish)
        else:
            self.put(wish, self.standing.get(net) == outcome)

    def is_good(self, outcome: lines.Outcome) -> bool:
        """Whether a refused track is not wanted: its net was laid later, or saved legs join its points."""
        stead = self.good.get(outcome.key)
        return stead is not None and (stead.place is not None or stead.net not in self.standing)

    def take_wanted(self, wanted: Wanted) -> None:
        """Takes a line `connect`."""
        start, end = (self.end_of(end) for end in wanted.ends)
        remark = "; ".join(part for part in map(str.strip, wanted.remark.split(";"))
                           if part and not part.startswith("open"))
        if not any(part.startswith("net:") for part in remark.split("; ")):
            remark = "; ".join([f"net: {start.called} to {end.called}"] + [remark] * bool(remark))
        self.put(Wish(wanted.net, (start, end), wanted.said, remark))

    def put(self, wish: Wish, stands: bool = False) -> None:
        """Puts a wish, unless its net is taken."""
        free = stands or wish.net not in self.nets
        if free and all(other.net != wish.net for other in self.wishes) and 1 <= wish.net <= 999:
            self.wishes.append(wish)
        else:
            self.taken.append(wish)

    def end_at(self, point: Point) -> End:
        """An end at a point, which may be a pin."""
        pin = next((name for name, place in self.reading.pins.items() if place == point), None)
        return End(pin or at(point), point, is_pin=pin is not None)

    def end_of(self, end: Union[str, Point]) -> End:
        """An end by its name, or as a point."""
        if not isinstance(end, str):
            return self.end_at(end)
        if end in self.reading.pins:
            return End(end, self.reading.pins[end], is_pin=True)
        return End(end, None, contacts(self.reading.keys[end], sum(self.pen), self.strips))


def track_remark(line: textform.Line) -> str:
    """The remark that goes with a line's track: all of it, or its net's name where it is about other steps too."""
    if len(names.steps_on(line)) == 1:
        return line.remark
    return "; ".join(f"net: {name}" for word, name in names.given(line) if word == "net")


def patched(run: lines.Run, library: Any) -> list[Box]:
    """The free strips of the foil with nothing on it but its patches."""
    foil = keyfoil.Sheet(library).foil(0)
    for outcome in run.outcomes:
        if outcome.step.word in ("board", "patch"):
            trial.do(foil, outcome.step)
    return [tuple(strip) for strip in foil.strips]


def contacts(key: Box, margin: int, strips: list[Box]) -> tuple[Box, ...]:
    """The points straight beside a key that are as near to it as the pen lets a track be, and free: as boxes."""
    x0, y0, x1, y1 = key
    sides = [(x0 - margin - 1, y0, x0 - margin, y1), (x1 + margin, y0, x1 + margin + 1, y1),
             (x0, y0 - margin - 1, x1, y0 - margin), (x0, y1 + margin, x1, y1 + margin + 1)]
    made: list[Box] = []
    for side in sides:
        for part in (boxes.common(side, strip) for strip in strips):
            if boxes.area(part) and made and made[-1][2:] == (part[2], part[1]) and made[-1][0] == part[0]:
                made[-1] = (*made[-1][:3], part[3])
            elif boxes.area(part):
                made.append(part)
    return tuple(made)


class Base:
    """The steps of a text that are never touched, done on a foil of their own."""

    def __init__(self, reading: Reading, found: Found, library: Any) -> None:
        self.text, self.kept = reading.text, found.kept
        self.foil = keyfoil.Sheet(library).foil(0)
        self.steps: list[jobs.Step] = []
        self.changes: dict[int, list[str]] = {}

    def made(self) -> tuple[list[jobs.Step], dict[int, list[str]]]:
        """The steps, and the lines that are others for that: a track goes, or has become legs."""
        records = {record.place: record for record in jobs.read(self.text.job).records}
        for line in self.text.lines:
            steps = [(step, self.stays(step, line)) for step in records[line.place].steps]
            if any(stay != [step] for step, stay in steps):
                left = [step for _, stay in steps for step in stay]
                self.changes[line.number] = remade(line, left)
            self.steps += [step for _, stay in steps for step in stay]
        return self.steps, self.changes

    def stays(self, step: jobs.Step, line: textform.Line) -> list[jobs.Step]:
        """What stays of a step: itself, nothing, or legs."""
        if step.word == "track":
            way = self.kept.get(line.place)
            return self.as_it_lay(step, way) if way else []
        if step.word == "lift" and step.net not in self.foil.nets:
            return []
        trial.do(self.foil, step)
        return [step]

    def as_it_lay(self, step: jobs.Step, way: Way) -> list[jobs.Step]:
        """A kept track: as it is where that gives its way here too, and else as legs."""
        answer = trial.do(self.foil, step)
        if answer.accepted and tuple(tuple(corner) for corner in answer.corners) == way:
            return [step]
        if answer.accepted:
            trial.do(self.foil, jobs.Step("lift", (step.net,)))
        made = [jobs.Step("leg", (step.net, *leg)) for leg in legs(way)]
        for leg in made:
            trial.do(self.foil, leg)
        return made


def remade(line: textform.Line, left: list[jobs.Step]) -> list[str]:
    """A line of which these steps are left."""
    if not left:
        return []
    if sum(step.word == "leg" for step in left) > 1:
        first, *rest = [textform.step_text(step) for step in left]
        return [f"{first}  # {line.remark}; {KEPT_AS_LEGS}", *rest]
    said = ", ".join(textform.step_text(step) for step in left)
    return [f"{said}  # {line.remark}" if line.remark else said]
