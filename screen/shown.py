"""A foil as the page gets it: what the library holds of it, with lines, names and words from its text."""
import hashlib
import re
from typing import Any, Dict, Optional

from desk import blocking, checks, colours, foils, lines, names, ohms, words
from desk.boxes import common, frame_of, widened
from desk.refusals import Refusal, refusal
from keyfoil.limits import ENTRIES, FOILS, PLACES, SURE
from screen import texts

# how many lines the check list has for one thing
LISTED = 40
# the numbers of a file that ends before its end mark, and of one that is too long as a whole
CUT, WHOLE = 14, 18


class Account:
    """A text that was run: what came of it, the foil, and what the library holds."""

    def __init__(self, text, held):
        self.text, self.held = text, held
        strips = held["strips"] if held["ended"] else []
        self.lines = held["lines"] + ["strip %d %d %d %d" % tuple(strips[at:at + 4]) for at in range(0, len(strips), 4)]
        self.run = lines.run_of(text.job, "\n".join(self.lines))
        self.names = names.names_of(text)
        self.called = foils.called_by(self.run, self.names)
        self.foil = foils.foil_of(self.run, self.names)
        self.made_good = foils.made_good(self.run)

    @property
    def is_done(self):
        """Whether the job came to its end mark, so that there is a foil to work on."""
        return self.run.strips is not None

    @property
    def board(self):
        """The foil's size and pen."""
        return dict(zip(("width", "height", "half", "gap"), self.held["board"]))

    def line_of(self, place):
        """The number of the line of a place."""
        return self.text.line_of(place).number

    def standing(self):
        """The accepted steps that are on the foil: those of patches in the table's order, and by net those since its
        last lift."""
        patches, nets = [], {}
        for outcome in self.run.outcomes:
            if outcome.said and not outcome.said.number:
                if outcome.step.word == "patch":
                    patches.append(outcome)
                elif outcome.step.word == "lift":
                    nets.pop(outcome.step.net, None)
                elif outcome.step.word in ("track", "leg"):
                    nets.setdefault(outcome.step.net, []).append(outcome)
        return patches, nets


def limit(counts, k):
    """How many entries foil k may have, by how many each foil has."""
    others = sum(max(SURE, count) for at, count in enumerate(counts) if at != k)
    return min(ENTRIES, PLACES - others)


def counts_of(held):
    """How many entries each foil of the sheet has."""
    return [len(held[k]["entries"]) if k in held else 0 for k in range(FOILS)]


def refused(number, table, here=(), step=""):
    """A refusal as the page gets it."""
    says, to_do = refusal(number, table)
    return {"number": number, "says": says, "to_do": to_do, "here": list(here), "step": step}


def empty(k, source, faults, counts):
    """A foil whose text has nothing to run."""
    return {"foil": k, "text": source, "unread": [{"line": line, "why": why} for line, why in faults], "fault": None,
            "begun": False, "board": None, "entries": 0, "more": limit(counts, k), "patches": [], "nets": [],
            "strips": [], "free": "", "rows": [], "open": [], "missing": [], "checks": [], "strays": [],
            "zones": {"edge": [], "clearance": [], "kept": []}, "ink": ink_seen(source, None, (), None),
            "job": None}


def foil(k, source, account, counts, table, notes, ink):
    """A foil: its text, what came of it, and all that is on it. `notes` say what would help with refused steps, and
    `ink` is what the library answered about the ohms: the refusal's number, and those of each net."""
    made = empty(k, source, [], counts)
    run, held = account.run, account.held
    made.update(
        fault=fault_of(account, table), job=job_seen(account.text.job),
        rows=[row_seen(row) for row in words.rows(account.text, run, table, account.called, notes)],
        strays=[{"line": line, "why": why} for line, why in names.strays(account.text)])
    if not held["board"]:
        return made
    patches, nets = account.standing()
    number, each = ink
    made.update(
        begun=True, board=account.board, entries=len(held["entries"]), more=limit(counts, k) - len(held["entries"]),
        patches=[patch_seen(account, outcome) for outcome in patches],
        nets=nets_seen(account, nets, dict(each), texts.ink_of(source)["dead"]), strips=held["strips"],
        free=words.left_free(run.strips) if account.is_done else "",
        open=[open_seen(account, outcome, table) for outcome in run.refused
              if outcome.step.word == "track" and outcome.key not in account.made_good],
        missing=missing_seen(account, table), zones=zones(account),
        checks=[check_seen(finding) for finding in checks.findings(account.foil, LISTED)] if account.is_done else [],
        ink=ink_seen(source, account.board, each, number and refused(number, table, ink_range(source, account))))
    made["checks"] += [{"matter": "dead", "where": "net %d: %.3f ohms" % (net["net"], net["ohms"]),
                        "at": net["legs"][0][:2]} for net in made["nets"] if net["dead"]]
    return made


def job_seen(job):
    """A job file as the page gets it."""
    return {"bytes": len(job), "digest": hashlib.sha256(job).hexdigest(), "hex": job.hex()}


def fault_of(account: Account, table: Dict[int, Refusal]) -> Optional[Dict[str, Any]]:
    """What ended the job before its end mark: the file's fault, or the refusal of its board."""
    run = account.run
    if run.strips is not None:
        return None
    said = run.fault or run.outcomes[0].said
    line = None if run.fault else account.text.lines[0].number
    if run.fault and said.number != WHOLE and run.place < len(account.text.job):
        line = account.line_of(run.place)
    unended = said.number == CUT and line is None
    here = ["its last line is not `end`"] if unended else [
        f"it makes {len(account.text.job)} bytes"] if said.number == WHOLE else []
    return {**refused(said.number, table, here), "line": line, "unended": unended}


def row_seen(row):
    """What came of a step, as the page gets it."""
    parts = row.said.split()
    word = parts[0] if parts and parts[0] in ("board", "patch", "track", "lift", "leg", "end") else ""
    net = int(parts[1]) if word in ("track", "lift", "leg") else None
    return {"line": row.number, "said": row.said, "words": row.words, "refused": row.refused, "word": word, "net": net}


def patch_seen(account, outcome):
    """A patch."""
    return {"box": outcome.step.numbers, "name": account.called[outcome.key], "line": account.line_of(outcome.place)}


def lengths_of(slip):
    """The length of each net, by the lines of the slip."""
    rows = [line.split() for line in slip.splitlines()]
    return {int(row[0]): int(row[2]) for row in rows}


def nets_seen(account, nets, ohms_of, dead):
    """The nets, in the table's order."""
    legs = {}
    for net, *box in account.held["entries"]:
        if net:
            legs.setdefault(net, []).append(box)
    lengths, places = lengths_of(account.held["slip"]), colours.assigned(account.foil.nets)
    named = {net.net: (net.name, place) for net, place in zip(account.foil.nets, places)}
    made = []
    for net, boxes in legs.items():
        steps = nets.get(net, [])
        laid = steps[0].said if len(steps) == 1 and steps[0].step.word == "track" else None
        name, colour = named.get(net, ("", 0))
        measured = ohms_of.get(net)
        made.append({
            "net": net, "name": name, "legs": boxes, "corners": laid and laid.corners, "bends": laid and laid.bends,
            "length": lengths.get(net), "ends": laid and [laid.corners[0], laid.corners[-1]],
            "lines": sorted({account.line_of(outcome.place) for outcome in steps}), "ohms": measured,
            "dead": measured is not None and ohms.is_dead(measured, dead), "colour": colour})
    return made


def open_seen(account, outcome, table):
    """A track that was refused, and is open."""
    start, end = foils.points_of(outcome.step)
    return {"net": outcome.step.net, "name": account.called[outcome.key], "from": start, "to": end,
            "number": outcome.said.number, "line": account.line_of(outcome.place),
            "says": refusal(outcome.said.number, table).says}


def missing_seen(account, table):
    """The patches and legs that were refused and are not on the foil."""
    there = {tuple(entry) for entry in account.held["entries"]}
    gone = [outcome for outcome in account.run.refused if outcome.step.word in ("patch", "leg")
            and (outcome.step.net or 0, *outcome.step.numbers[-4:]) not in there]
    return [{"net": outcome.step.net or 0, "box": outcome.step.numbers[-4:], "name": account.called[outcome.key],
             "number": outcome.said.number, "line": account.line_of(outcome.place),
             "says": refusal(outcome.said.number, table).says} for outcome in gone]


def check_seen(finding):
    """A line of the check list, with the first point that it names."""
    found = re.search(r"(\d+),(\d+)", finding.where) or re.search(r"(?:patch|leg(?: \d+)?) (\d+) (\d+) \d+ \d+",
                                                                 finding.where)
    return {"matter": finding.matter, "where": finding.where, "at": found and [int(found[1]), int(found[2])]}


def zones(account):
    """Zones for the layers of the picture, by the rule of the desk's pictures."""
    width, height, half, gap = account.held["board"]
    whole, entries = (0, 0, width, height), list(dict.fromkeys(map(tuple, account.held["entries"])))
    inked = [widened(box, half if net else 0) for net, *box in entries]
    return {
        "edge": frame_of(whole, half + gap) if half + gap else [],
        "clearance": [common(widened(box, gap), whole) for box in inked] if gap else [],
        "kept": [common(widened(box, blocking.reach(net, (half, gap))), whole)
                 for net, *box in entries] if half else []}


def ink_figures(source, half):
    """The ink of a text for a pen, or none where its figures are not given."""
    figures = texts.ink_of(source)
    if figures["sheet"] is None or figures["bend"] is None:
        return None
    width = figures["width"]
    return ohms.Ink(figures["sheet"], 2.0 * half + 1 if width is None else width, figures["bend"], width is None)


def ink_range(source, account):
    """Which figures of a refused ink are out of their range."""
    ink = ink_figures(source, account.board["half"])
    return [said.removeprefix("--") for said in ohms.out_of_range(ink)] if ink else []


def ink_seen(source, board, each, refusal_seen):
    """The ink's figures."""
    figures = texts.ink_of(source)
    ink = ink_figures(source, board["half"]) if board else None
    return {"sheet": figures["sheet"], "bend": figures["bend"], "dead": figures["dead"],
            "width": ink.width if ink else figures["width"] if figures["width"] is not None else
            2.0 * board["half"] + 1 if board else None,
            "given": figures["width"] is not None, "said": ink.said() if ink else "", "refused": refusal_seen or None}
