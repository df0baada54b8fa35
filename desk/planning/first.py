"""A text that has wishes is planned before a command goes on with it, and that is said."""
from desk import console, textform
from desk.planning import reading as readings
from desk.sources import Source


def planned(source: Source) -> tuple[textform.Text, bool]:
    """The text of what was given, planned where it has wishes; and whether a wish is open then."""
    reading = source.reading()
    if not reading.wanted:
        return reading.text, False
    from desk.planning import command, plans
    made = command.planned_of(source, plans.CALLS)
    command.tell(source, made)
    console.complain("it was planned first: the lines below are those of the planned text, as ./foil-plan prints it")
    return readings.read(made.text).text, bool(made.open)
