"""The three streams of a command, each of which may be closed, and the width of a terminal."""
import errno
import os
import sys
import textwrap

# the columns of what is printed or said; on a narrower terminal they are those of the terminal
WIDTH = 116


def prepare():
    """Fills the places of closed streams, so that no file that is opened later is taken for one of them. What is said
    on a closed standard error goes nowhere. A letter that a stream has no bytes for is a question mark there."""
    for place in range(3):
        try:
            os.fstat(place)
        except OSError:
            os.open(os.devnull, os.O_RDWR)
    if sys.stderr is None:
        sys.stderr = open(os.devnull, "w", encoding="utf-8")
    for stream in (sys.stdout, sys.stderr):
        if hasattr(stream, "reconfigure"):
            stream.reconfigure(errors="replace")


def complain(*what):
    """Says something on standard error: at a terminal, in lines that fit it."""
    said = " ".join(map(str, what))
    if sys.stderr.isatty():
        said = "\n".join(fitted(line) for line in said.split("\n"))
    print(said, file=sys.stderr, flush=True)


def fitted(line):
    """A line as lines that fit standard error."""
    if len(line) <= width():
        return line
    return textwrap.fill(line, max(width(), 12), subsequent_indent="    ", break_on_hyphens=False)


def width(stream=None):
    """The columns for what goes to a stream, by default to standard error."""
    stream = stream or sys.stderr
    there = os.get_terminal_size(stream.fileno()).columns if stream and stream.isatty() else 0
    return min(there or WIDTH, WIDTH)


def waiting():
    """Whether standard input is a terminal, at which nothing was typed yet."""
    return sys.stdin is not None and sys.stdin.isatty()


def take(most):
    """The bytes of standard input, at most so many."""
    if sys.stdin is None:
        raise OSError(errno.EBADF, "it is closed", "standard input")
    try:
        return sys.stdin.buffer.read(most)
    except OSError as fault:
        fault.filename = "standard input"
        raise


def put(what):
    """Prints a text or bytes. Where that fails, what is still to be printed goes nowhere."""
    if sys.stdout is None:
        raise OSError(errno.EBADF, "it is closed", "standard output")
    try:
        (sys.stdout if isinstance(what, str) else sys.stdout.buffer).write(what)
        sys.stdout.flush()
    except OSError:
        os.dup2(os.open(os.devnull, os.O_WRONLY), sys.stdout.fileno())
        raise
