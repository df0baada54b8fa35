"""The desk's tools: they stand around the proved programs, and decide nothing.

    command      the command ./foil
    asking       the commands ./foil-job, ./foil-save, ./foil-slip and ./foil-ohms
    orders       the command ./foil-order
    plotting     the command ./foil-plot, in a folder of its own
    papers       the files of a foil, all made from its text; with carton, the page for the carton
    folders      an order's folder: its name, what differs in it, and writing it whole
    planning     the command ./foil-plan: names for ends, and a plan in which all tracks fit
    ohms         the ink's figures, and the ohms as they are read at the desk
    arguments    the words of a command
    sources      the text or the job file that it is given
    outputs      the files that it writes beside its answer
    statuses     the exit statuses of all commands, and what ends one early
    console      their standard input, output and error
    textform     the text form of a job, to bytes and back
    millimetres  the size of a point, and lengths that are a whole number of points
    names        the names that a text's remarks give
    remarks      what remarks say of the order: the ink's figures, and for whom it is
    job          the bytes of a job file: records and steps, and where a file is at fault
    building     the proved programs: whether they are those of the sources, and building them where not
    progress     how far proving is
    installing   the command ./install
    program      running one
    lines        the program's lines, and which step each of them is about
    refusals     README's table: what a number says, and what to do
    accounts     what came of a text: its job run, its foil, and all that is said of it
    words        what came of each line of a text
    advice       what would help with a refused step, by asking the program again; with blocking, the rule
    foils        the foil that a job leaves, and what of it is open
    checks       its check list
    picture      its picture; with legend, labels, colours, boxes and svg"""
import sys

if sys.version_info < (3, 9):
    sys.stderr.write("the desk's tools want Python 3.9 or later, and this is %d.%d\n" % tuple(sys.version_info[:2]))
    sys.exit(5)
