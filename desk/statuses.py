"""The exit statuses of the commands, one meaning each, and what ends a command early. README's table has them in
words."""
import pathlib
import traceback

from desk import console, lines, program

# every step was accepted
ACCEPTED = 0
# a step was refused: what is printed is of the foil without it
REFUSED = 1
# there is no foil: the text or the file cannot be read to its end, or its board was refused
NO_FOIL = 2
# what was asked of the foil was refused
NO_ANSWER = 3
# the command's words are not understood, or something could not be read or written
NOT_DONE = 4
# a program could not be proved, built or run to its end, or the tools around it failed
NO_PROGRAM = 5
# every step was accepted, and a net has more ohms than the limit that was given
DEAD = 6
# stopped from the keyboard
STOPPED = 130


class Misused(Exception):
    """A command was given words that it does not understand, or that would do harm: it says which."""


class Unread(Exception):
    """What was given cannot be read as a job: the lines that say why."""


def of_run(run):
    """The status for what came of a job."""
    return NO_FOIL if run.strips is None else REFUSED if run.refused else ACCEPTED


def ended(work):
    """The status of a command by its work, which returns it; or by what ended that early, which is told."""
    console.prepare()
    try:
        return work()
    except BrokenPipeError:
        return NOT_DONE
    except OSError as fault:
        console.complain("%s: %s" % (fault.filename or "standard output", fault.strerror))
        return NOT_DONE
    except Misused as usage:
        console.complain(usage)
        return NOT_DONE
    except Unread as unread:
        for line in unread.args:
            console.complain(line)
        return NO_FOIL
    except (program.NotRun, lines.Strange) as fault:
        console.complain(fault)
        return NO_PROGRAM
    except Exception as fault:
        console.complain(mistake(fault))
        return NO_PROGRAM
    except KeyboardInterrupt:
        console.complain("stopped")
        return STOPPED


def mistake(fault):
    """A mistake of the tools themselves, in one line: what it is, and where."""
    place = traceback.extract_tb(fault.__traceback__)[-1]
    said = " ".join(str(fault).split())
    return "a mistake in the desk's own tools, at %s, line %s: %s%s" % (
        pathlib.Path(place.filename).name, place.lineno, type(fault).__name__, said and ": " + said)
