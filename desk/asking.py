"""The commands ./foil-job, which prints the job program's lines, and ./foil-save, ./foil-slip and ./foil-ohms, which
ask something of the foil that a job leaves.

Each of those three runs a program of its own, which answers, and the job program on the same bytes, whose lines say
what was refused on the way: that is told on standard error, in the words of ./foil. Where the two do not agree on how
the job ended, neither is believed."""
import re
import sys
import textwrap
from typing import Callable, NamedTuple

from desk import arguments, building, console, lines, ohms, program, refusals, sources, statuses, words

JOB_HELP = """Runs a job, and prints the job program's lines as they are: one for each step, then the free strips
(docs/JOB.md). The exit status is by README's table."""
SAVE_HELP = """Runs a job, and writes the foil that it leaves as a job file to standard output, as in

    %(prog)s FILE > SAVED.job

Steps that were refused are told on standard error. Where the job cannot be read to its end, its board is refused or
the save is (11), that is told instead, and nothing is written. The exit status is by README's table."""
SLIP_HELP = """Runs a job, and prints the slip of the foil that it leaves, a line for each net: the net, its legs, its
length, and x and y of its first point.

Steps that were refused are told on standard error. Where the job cannot be read to its end or its board is refused,
that is told instead, and nothing is printed. The exit status is by README's table."""
OHMS_HELP = """Runs a job, and prints the ohms of each net on the foil that it leaves, in thousandths, as in

    %(prog)s --sheet 0.5 --bend 0.5 FILE

Steps that were refused are told on standard error. Where a figure is out of its range (22), the job cannot be read to
its end or its board is refused, that is told instead, and nothing is printed. The exit status is by README's table."""


class Answer(NamedTuple):
    """What a program answered: bytes to print; or, as a word and a number, what it refused, or what ended the job.
    Then what is to be said besides: why it was refused, and a sentence where a net is dead."""
    printed: bytes
    refused: tuple = None
    why: tuple = ()
    dead: str = ""


class Question(NamedTuple):
    """A question to the foil that a job leaves: the command and its help, the program that answers, what puts the
    command's own words to its parser, the bytes that the program is given before the job, and how its answer is read.
    `none` is said where there is nothing to print."""
    command: str
    about: str
    program: str
    add_words: Callable
    given: Callable
    read: Callable
    none: str = ""


def refusal_of(line):
    """A line by which a program refuses something: its word and its number."""
    found = re.fullmatch(r"(file|board|save|slip|ohms \d+) (\d+)\n?", line)
    if not found:
        raise lines.Strange("the program wrote a line that is none of its own: `%s`" % line.strip())
    return found[1].split()[0], int(found[2])


def as_written(written, asked, job):
    """The answer of a program that prints it, or a line on standard error."""
    return Answer(b"", refusal_of(written.err)) if written.err else Answer(written.out)


def add_figures(parser, needed=True):
    """The words of foil-ohms; in a command that can go without them, they are not needed."""
    parser.add_argument("--sheet", metavar="OHMS", required=needed, type=arguments.figure,
                        help="the ink's ohms a square: above 0, at most 1000")
    parser.add_argument("--bend", metavar="SQUARES", required=needed, type=arguments.figure,
                        help="the squares counted for a bend: 0 to 4")
    parser.add_argument("--width", metavar="POINTS", type=arguments.figure,
                        help="the width of a track: 1 to 64; where it is left out, that of the pen, 2 HALF + 1")
    parser.add_argument("--dead", metavar="OHMS", type=arguments.limit, help="call each net dead that has more ohms")
    parser.add_argument("--exact", action="store_true",
                        help="print lines `NET OHMS`, in decimals that read back to the very f64 that was answered")


def in_ohms(written, asked, job):
    """The answer of ohms_main: a line `ohms NET 0 BITS` for each net, or one of a refusal."""
    ink, rows = ohms.ink_of(asked, job), []
    for line in written.out.decode("ascii", errors="replace").splitlines():
        row = ohms.row_of(line)
        if not row:
            return Answer(b"", refusal_of(line), ohms.out_of_range(ink))
        rows.append(row)
    shown = ohms.exact(rows) if asked.exact else ohms.page(rows, ink, asked.dead) if rows else ""
    return Answer(shown.encode(), dead=ohms.dead_said(rows, asked.dead))


def no_words(parser):
    """For a command that has no words of its own."""


def no_bytes(asked, job):
    """For a program that is given the job alone."""
    return b""


SAVE = Question("foil-save", SAVE_HELP, "save_main", no_words, no_bytes, as_written)
SLIP = Question("foil-slip", SLIP_HELP, "slip_main", no_words, no_bytes, as_written,
                "there is no net on the foil, so its slip is empty")
OHMS = Question("foil-ohms", OHMS_HELP, "ohms_main", add_figures, lambda asked, job: ohms.ink_of(asked, job).bits,
                in_ohms, "there is no net on the foil, so there are no ohms")


def job_lines(given=None):
    """The command foil-job, by its words: its status."""
    parser = arguments.Parser("foil-job", JOB_HELP)
    parser.add_source()
    job = sources.source(parser.parse_args(given).file).text().job
    path, = building.built("job_main")
    written = program.written(path, job).out
    console.put(written)
    return statuses.of_run(lines.run_of(job, written.decode("ascii", errors="replace")))


def ask(question, given=None):
    """The command that asks a question, by its words: its status."""
    parser = arguments.Parser(question.command, question.about)
    question.add_words(parser)
    parser.add_source()
    asked = parser.parse_args(given)
    if question is SAVE and sys.stdout and sys.stdout.isatty():
        parser.error("a job file is nothing for a terminal: send it to a file, > SAVED.job")
    text = sources.source(asked.file).text()
    run, answer = answered(question, asked, text.job)
    try:
        console.put(answer.printed)
    finally:
        told = said_besides(question, text, run, answer)
        if told:
            console.complain(told)
    return status_of(run, answer)


def answered(question, asked, job):
    """What came of a job, and what a question's program answers for the foil that it leaves."""
    runs, answers = building.built("job_main", question.program)
    run = lines.run_of(job, program.run(runs, job))
    answer = question.read(program.written(answers, question.given(asked, job) + job), asked, job)
    early = ended_early(run)
    if answer.refused != early and (early or answer.refused[0] in ("file", "board")):
        raise lines.Strange("the programs job_main and %s do not agree on how the job ended" % question.program)
    return run, answer


def ended_early(run):
    """What ended a job before its end mark, by the job program's lines: its word and its number, or none."""
    if run.strips is not None:
        return None
    said = run.fault or run.outcomes[0].said
    return said.word, said.number


def status_of(run, answer):
    """The status for a job and the answer about its foil."""
    if answer.refused and run.strips is not None:
        return statuses.NO_ANSWER
    return statuses.of_run(run) or (statuses.DEAD if answer.dead else statuses.ACCEPTED)


def said_besides(question, text, run, answer):
    """What is to be said besides the answer, in words that fit standard error: its heads, and the refused steps."""
    table, wide = refusals.readme_table(), console.width()
    heads = heads_of(question, run, answer, table)
    if not heads:
        return ""
    heads[0] = "%s: %s" % (arguments.called(question.command), heads[0])
    page = words.page([row for row in words.rows(text, run, table) if row.refused], wide)
    return "\n".join([textwrap.fill(head, wide) for head in heads] + page.splitlines())


def heads_of(question, run, answer, table):
    """Why nothing is printed, where that is so; otherwise that nets are dead, that there is none, or that steps were
    refused."""
    status = status_of(run, answer)
    if status == statuses.NO_FOIL:
        why = "the job cannot be read to its end" if run.fault else "its board was refused"
        return ["nothing is printed, since %s:" % why]
    if status == statuses.NO_ANSWER:
        says, *to_do = words.turned_down("nothing is printed, since it was refused", answer.refused[1], table)
        return [says, *answer.why, *to_do] + [many_refused(run) + ":"] * bool(run.refused)
    without = "it" if len(run.refused) == 1 else "them"
    heads = [answer.dead, not answer.printed and question.none, bool(run.refused) and
             "%s, and what is printed is of the foil without %s:" % (many_refused(run), without)]
    return [head for head in heads if head]


def many_refused(run):
    """How many steps of a job were refused, of how many."""
    many = len(run.refused)
    return "%d of %d steps %s refused" % (many, len(run.outcomes), "was" if many == 1 else "were")
