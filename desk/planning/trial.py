"""A job run whole on a new sheet by the library: what came of each step, as desk/lines.py has it of the job program."""
from typing import Any

import keyfoil

from desk import job as jobs
from desk.lines import Outcome, Run, Said


def run_of(job: bytes, library: Any = None) -> Run:
    """What came of a job."""
    foil = keyfoil.Sheet(library).foil(0)
    outcomes, records = [], {record.place: record for record in jobs.read(job).records}
    place = 0
    while True:
        answer = foil.run_record(job, place)
        for step, said in zip(records[place].steps if place in records else (), answer.steps):
            outcomes.append(Outcome(place, step, said_of(step, said.answer)))
        if not answer.accepted:
            return Run(outcomes, None, Said("file", None, int(answer.refusal)), place)
        if answer.end:
            return Run(outcomes, [tuple(strip) for strip in foil.strips], None, place)
        if answer.next is None:
            return Run(outcomes, None, None, None)
        place = answer.next


def said_of(step: jobs.Step, answer: Any) -> Said:
    """What was said of a step."""
    corners = tuple((corner.x, corner.y) for corner in getattr(answer, "corners", ()))
    return Said(step.word, step.net, int(answer.refusal), getattr(answer, "bends", 0), corners)


def do(foil: Any, step: jobs.Step) -> Any:
    """Does a step on a foil, as a record of its own: the answer. A board begins the foil."""
    made = jobs.record_bytes([step])
    record = foil.run_record(made, 0) if step.word == "board" else foil.run_record(b"\0" + made, 1)
    return record.steps[0].answer
