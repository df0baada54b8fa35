#!/usr/bin/env python3
"""Counts the places of older forms in crates/*/src, by the eight points of docs/DESIGN-PASS.md.

tools/forms.py          a line for each count
tools/forms.py WORD..   the places of the counts whose names begin with one of the words

The text is read by patterns, so a count is of places to look at, each of which the page names as changed or kept.
"""

import re
import sys
from collections import defaultdict
from pathlib import Path
from typing import NamedTuple

ROOT = Path(__file__).resolve().parent.parent
FUNCTION = re.compile(r'^[ \t]*(?:pub(?:\(crate\))? )?(?:extern "C" )?fn (\w+)', re.M)
ENUM = re.compile(r"^[ \t]*(?:pub(?:\(crate\))? )?enum (\w+)[^{]*\{(.*?)^\}", re.M | re.S)
LENGTH = re.compile(r"(\w+): &(?:mut )?\[(?:u8|u16|u32|usize)(?:; \w+)?\],\s*(?:n|m|k|c|count|size|len): usize")
CLAUSE = re.compile(r"^ +requires(?: \w+)? \{ (.*?) \}$", re.M | re.S)
LINES = {
    "1 refusals as numbers": r"(?:Refused|refuse|refused)\(\d+|Refused\(u8\)|number: u8\b",
    "1 a number for none, by its comment": r"//.*[^0-9,](?:0|4,096|4,097|MAX_ENTRIES) (?:for|where|if) (?:there|no|none|more|the|a)\b",
    "1 a flag beside a value": r"^ +(?:pub )?(?:found|taken|all|laid|ended|ran|more|end): bool,",
    "3 loops by hand": r"^ *(?:'\w+: )?(?:let \w+ = )?(?:while\b|loop \{)",
    "4 conversions by `as`": r"\b as (?:u8|u16|u32|u64|usize|f64)\b",
    "4 comparing, copying, printing by hand": r"^ *(?:pub(?:\(crate\))? )?fn (?:smaller|larger|lesser|nearer|least|wide|narrow|same\w*"
    r"|alike|copy\w*|clear|fill|zeros|either|number_of|no_board|print\w*|put_number|put_hex|put_two_bytes)\b",
}


class Function(NamedTuple):
    place: str
    name: str
    parameters: int
    head: str
    body: str


def group(text: str, at: int, pair: str) -> int:
    """The place after the group that begins at `at`."""
    depth = 0
    for i in range(at, len(text)):
        depth += (text[i] == pair[0]) - (text[i] == pair[1])
        if depth == 0:
            return i + 1
    return len(text)


def functions(path: Path) -> list[Function]:
    text = re.sub(r"b?'[{}()]'", "' '", path.read_text())
    found = []
    for match in FUNCTION.finditer(text):
        opening = text.index("(", match.end())
        closing = group(text, opening, "()")
        parameters = len(re.findall(r"\w+: |\bself\b", text[opening:closing]))
        at = closing
        while True:
            brace = text.find("{", at)
            if brace < 0:
                break
            end = group(text, brace, "{}")
            if not re.search(r"\b(?:requires|ensures)(?: \w+)? $", text[at:brace]):
                line = text.count("\n", 0, match.start()) + 1
                place = f"{path.relative_to(ROOT)}:{line}"
                found.append(Function(place, match[1], parameters, text[opening:brace], text[brace:end]))
                break
            at = end
    return found


def skeleton(body: str) -> str:
    """A body without its names and numbers."""
    body = re.sub(r'b?"[^"]*"', '""', re.sub(r"//.*", "", body))
    words = {"if", "else", "let", "mut", "while", "for", "in", "return", "match", "loop", "break", "true", "false"}
    return re.sub(r"\w+", lambda m: m[0] if m[0] in words else "x", re.sub(r"\s+", " ", body))


def places() -> dict[str, list[str]]:
    counts: dict[str, list[str]] = defaultdict(list)
    shapes: dict[str, list[str]] = defaultdict(list)
    clauses: dict[str, list[str]] = defaultdict(list)
    for path in sorted(ROOT.glob("crates/*/src/**/*.rt")):
        text = path.read_text()
        for match in ENUM.finditer(text):
            if "(" in match[2]:
                line = text.count("\n", 0, match.start()) + 1
                counts["1 enums whose variants carry values"].append(f"{path.relative_to(ROOT)}:{line} {match[1]}")
        for name, pattern in LINES.items():
            for number, line_text in enumerate(text.split("\n"), 1):
                if re.search(pattern, line_text):
                    counts[name].append(f"{path.relative_to(ROOT)}:{number} {line_text.strip()}")
        for function in functions(path):
            told = f"{function.place} {function.name}"
            if function.body.count("\n") > 3:
                shapes[skeleton(function.body)].append(told)
            if function.parameters >= 8:
                counts["5 functions of eight parameters or more"].append(f"{told} {function.parameters}")
            for clause in CLAUSE.findall(function.head):
                clauses[re.sub(r"\s+", " ", clause)].append(told)
            for length in LENGTH.findall(function.head):
                counts["6 a list with its length beside it"].append(f"{told} {length}")
            numbers = re.findall(r"if (\w+) == (?:\d+|\w+::\w+) \{", function.body)
            if any(numbers.count(word) >= 3 for word in numbers):
                counts["7 a switch by hand"].append(told)
    for told_by in shapes.values():
        if len(told_by) > 1:
            counts["2 functions of one shape"] += [" = ".join(told_by)]
    for clause, told_by in clauses.items():
        if len(told_by) >= 3:
            counts["5 a clause of three functions or more"].append(f"{len(told_by)} times: {clause}")
    answers = list(ROOT.glob("crates/*/proofs/**/Answers.antt"))
    counts["8 files of answers"] = [str(path.relative_to(ROOT)) for path in answers]
    return counts


def main() -> None:
    words = sys.argv[1:]
    for name, told in sorted(places().items()):
        if not words:
            print(f"{len(told):5} {name}")
        elif any(name.startswith(word) for word in words):
            print(f"{name}: {len(told)}")
            print("".join(f"    {place}\n" for place in told), end="")


if __name__ == "__main__":
    main()
