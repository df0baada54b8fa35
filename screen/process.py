"""The library's own process: it loads libfoil.so, reads a question a line from standard input, and writes an answer a
line to standard output, both JSON. Where a call crashes, this process ends and no other.

    python3 process.py LIBRARY"""
import json
import pathlib
import sys
import threading

sys.dont_write_bytecode = True
ROOT = pathlib.Path(__file__).resolve().parent.parent
sys.path[0:1] = [str(ROOT), str(ROOT / "hosts" / "python")]

from keyfoil import STACK, NoLibrary, load

from screen.bench import Bench, Disagreed


def jobs_of(values):
    """Jobs in hexadecimal, or none."""
    return [None if value is None else bytes.fromhex(value) for value in values]


# the questions: how each is put to the bench
QUESTIONS = {
    "jobs": lambda bench, asked: bench.set_jobs(jobs_of(asked["jobs"])),
    "alone": lambda bench, asked: bench.alone(bytes.fromhex(asked["base"]), bytes.fromhex(asked["more"])),
    "look_up": lambda bench, asked: bench.look_up(asked["foil"], asked["point"]),
    "find": lambda bench, asked: bench.find(asked["foil"], asked["from"], asked["to"], asked["net"], asked["ink"]),
    "book": lambda bench, asked: bench.book(asked["foil"], asked["net"], asked["corners"], asked["ink"]),
    "join": lambda bench, asked: bench.join(asked["foil"], asked["net"], asked["point"], asked["ink"]),
    "draw": lambda bench, asked: bench.draw(asked["foil"], asked["box"]),
    "list": lambda bench, asked: bench.lay_list(asked["foil"], asked["wishes"]),
    "opening": lambda bench, asked: bench.opening(asked["foil"], asked["from"], asked["to"], asked["net"]),
    "letting": lambda bench, asked: bench.letting(asked["foil"], asked["box"]),
    "ohms": lambda bench, asked: bench.ohms(asked["foil"], asked["ink"]),
    "save": lambda bench, asked: bench.save(asked["foil"]),
}


def answer(bench, asked):
    """The answer to a question. A number that a call cannot be given is said, and not asked."""
    try:
        return {"answer": QUESTIONS[asked["ask"]](bench, asked)}
    except (ValueError, OverflowError) as fault:
        return {"wrong": str(fault)}
    except Disagreed as fault:
        return {"strange": str(fault)}


def serve(path):
    """Says whether the library is there, and answers until standard input ends."""
    try:
        bench = Bench(load(path))
    except NoLibrary as fault:
        write({"absent": str(fault)})
        return
    write({"absent": ""})
    for line in sys.stdin:
        write(answer(bench, json.loads(line)))


def write(what):
    """Writes a line."""
    sys.stdout.write(json.dumps(what, separators=(",", ":")) + "\n")
    sys.stdout.flush()


if __name__ == "__main__":
    threading.stack_size(STACK)
    worker = threading.Thread(target=serve, args=sys.argv[1:2], daemon=True)
    worker.start()
    worker.join()
