"""The desk's command, ./foil: runs the job of a text or of a job file, and says for each line what came of it."""
import pathlib
import sys

from desk import accounts, building, job, outputs, picture, refusals, sources, statuses, textform
from desk.arguments import Parser
from desk.console import complain, put, width
from desk.outputs import Output
from desk.planning import first

HELP = """Runs the job of a text, and says for each line what came of it:

    %(prog)s FILE.txt
    %(prog)s --picture OUT.svg FILE.txt     draws the foil too
    %(prog)s --job OUT.job FILE.txt         keeps the job file too
    %(prog)s --text FILE.job                prints the text of a job file, and runs nothing

A text with `connect` lines is planned first, as by ./foil-plan, and that is said. A job file can stand for a text: its
lines are then those that --text prints. The exit status is 0 where all was
accepted, 1 where a step was refused, and 2 where the text or the file cannot be read to its end, or its board was
refused; README has those for what goes wrong besides."""


def arguments(given):
    """What the command is asked for."""
    parser = Parser("foil", HELP)
    parser.add_argument("--job", metavar="OUT.job", type=pathlib.Path, help="keep the job file")
    parser.add_argument("--picture", metavar="OUT.svg", type=pathlib.Path, help="draw the foil")
    parser.add_argument("--strips", action="store_true", help="draw its free strips too")
    shown = parser.add_mutually_exclusive_group()
    shown.add_argument("--lines", action="store_true", help="print the program's own lines")
    shown.add_argument("--quiet", action="store_true", help="print refusals only")
    shown.add_argument("--text", action="store_true", help="print the text of a job file, and run nothing")
    parser.add_source()
    asked = parser.parse_args(given)
    if asked.strips and not asked.picture:
        parser.error("--strips goes with --picture")
    if asked.text and (asked.job or asked.picture):
        parser.error("--text runs nothing: it goes without --job and --picture")
    return asked


def main(given=None, path=None):
    """Does what the command line asks; `path` is the job program, where it is not to be looked for."""
    return statuses.ended(lambda: do(arguments(given), path))


def do(asked, path):
    """Does what is asked: the status."""
    source = sources.source(asked.file)
    wanted = [Output(asked.job, "job file"), Output(asked.picture, "picture")]
    outputs.refuse([output for output in wanted if output.path], source.path)
    table = refusals.readme_table()
    if asked.text:
        return show_text(source, table)
    return run(asked, source, table, path)


def show_text(source, table):
    """Prints the text of a job file: the status."""
    if not source.is_job:
        raise statuses.Misused("--text prints the text of a job file, and %s is a text" % source.name)
    put(textform.show(source.content, lambda number: refusals.refusal(number, table).says))
    return statuses.NO_FOIL if job.file_number(source.content) else statuses.ACCEPTED


def run(asked, source, table, path):
    """Runs the job of a text, shows what came of it, and writes what is to be kept: the status."""
    text, left = first.planned(source)
    account = accounts.account_of(text, path or building.built("job_main")[0])
    try:
        put(account.written if asked.lines else account.page(table, width(sys.stdout), asked.quiet))
    finally:
        kept = keep(asked, source, text, account.foil, table)
        accounts.tell_strays(source.name, text)
    if not kept:
        return statuses.NOT_DONE
    return statuses.of_run(account.run) or (statuses.REFUSED if left else statuses.ACCEPTED)


def keep(asked, source, text, foil, table):
    """Writes the job file and the picture that are asked for: whether both could be written."""
    kept = outputs.write(asked.job, text.job) if asked.job else True
    if asked.picture and foil is None:
        complain("no foil was begun, so there is no picture")
    elif asked.picture:
        if asked.strips and foil.strips is None:
            complain("the job did not come to its end mark, so there are no strips")
        drawn = picture.picture(foil, source.title, asked.strips, table)
        kept = outputs.write(asked.picture, drawn.encode()) and kept
    return kept
