#!/usr/bin/env python3
"""Spells the definitions and lemmas of this repository in snake case, as today's Rattle does: maxSide becomes max_side, entryAt-same
becomes entry_at-same. It goes over crates/ once, after port.py: .antt files whole, .rt files and must-fail edits word by word.

usage: respell.py [--check]      at the top of the repository

A word turns by its parts between dashes, each that begins with a small letter and has a capital. Words of the source (functions,
fields, variables) are in snake case already and none of them changes; strings stay. Words that would fall together with another word
of the same file stand in KEPT under the name that they get instead.
"""
import os
import re
import sys

WORD = re.compile(r"(?<![A-Za-z0-9_'-])[A-Za-z_][A-Za-z0-9_']*(?:-[A-Za-z0-9_']+)*")
STRING = re.compile(r'b?"(?:\\.|[^"\\\n])*"|b\'(?:\\.|[^\'\\])\'')

# A word that another word of its file would meet, and what it is called.
KEPT = {
    "onRow": "is_on_row",
    "tooFine": "is_too_fine",
    "toldIn": "told_by_bits",
    "toldMore": "told_with_more",
    "stepLine": "line_of_step",
    "stepLines": "lines_of_steps",
    "notTaken": "is_not_taken",
    "endedBy": "is_ended_by",
    "atAhead": "to_ahead",
    "atFirst": "to_first",
    "atJ": "to_j",
    "atSecond": "to_second",
    "notLast": "to_not_last",
}


def part(s):
    if not re.match(r"[a-z][A-Za-z0-9_']*$", s) or not re.search(r"[A-Z]", s):
        return s
    s = re.sub(r"([a-z0-9])([A-Z])", r"\1_\2", s)
    s = re.sub(r"([A-Z])([A-Z][a-z])", r"\1_\2", s)
    return s.lower()


def word(m):
    w = m.group(0)
    return KEPT.get(w) or "-".join(KEPT.get(s) or part(s) for s in w.split("-"))


def turn(text):
    out, at = [], 0
    for s in STRING.finditer(text):
        out.append(WORD.sub(word, text[at : s.start()]))
        out.append(s.group(0))
        at = s.end()
    out.append(WORD.sub(word, text[at:]))
    return "".join(out)


def main(argv):
    changed = 0
    for folder, dirs, files in os.walk("crates"):
        dirs[:] = sorted(d for d in dirs if d != "out")
        for f in sorted(files):
            if not f.endswith((".antt", ".rt", ".edit")):
                continue
            p = os.path.join(folder, f)
            with open(p, encoding="utf-8") as it:
                old = it.read()
            new = turn(old)
            if new != old:
                changed += 1
                if "--check" not in argv:
                    with open(p, "w", encoding="utf-8") as it:
                        it.write(new)
    print(f"respell: {changed} files")
    return 0


if __name__ == "__main__":
    raise SystemExit(main(sys.argv[1:]))
