#!/usr/bin/env python3
"""Whether the pages tell the truth about names: tools/pages.py, from the project's root. Takes seconds, proves nothing.

- A name in backquotes in docs/PROVED.md, or among what README.md says is proved, is defined in crates/.
- Names that stand before a place, as in `a`, `b` (specs/Lent), are defined in that file.
- A function with a contract behind it, as in `search::first_path` (`PathFound`), cites it in its `ensures`.
- The edits that PROVED lists are those of crates/*/must-fail, and what refuses an edit of code is its function's.
- A link of any page, and a path in backquotes, leads to a file.

Prints a line for each that does not hold, and ends with 1 where there is one."""
from __future__ import annotations

import pathlib
import re
import sys
from collections.abc import Iterator

Definitions = dict[str, set[str]]

WORD = r"[A-Za-z][\w-]*"
NAME = re.compile(rf"{WORD}(?:::\w+)*")
MARKS = r"(?:(?:unfoldable|abbrev|pub)\s+)"
SIGNATURE = re.compile(rf"\s*\|?\s*{MARKS}*((?:[^\s:=(){{}}]+\s+)*?[^\s:=(){{}}]+) :(?:\s|$)")
TYPE = re.compile(rf"\s*{MARKS}*(?:record|data|ruleset)\s+(\S+)")
MARKED = re.compile(rf"\s*{MARKS}+(\S+)")
ITEM = re.compile(r"\b(?:fn|struct|enum|const|mod|static|type)\s+(\w+)")
PART = re.compile(r"^\s+(\w+)(?:\(|\s*\{|,|:)", re.M)
FUNCTION = re.compile(r"\bfn (\w+)\b.*?(?:^\{|^\s*fn |\Z)", re.M | re.S)

# words in backquotes that are the language's, the kit's, or an argument's
OTHERS = {"mut", "not", "zero", "div", "mul", "add", "struct", "requires", "ensures"}
# what stands between names that belong together
JOINED = re.compile(r"(?:,? (?:and|with) |, )(?:its )?")
PAGES = ("README.md", *(f"docs/{name}.md" for name in (
    "DESK", "PLAN", "SCREEN", "JOB", "HOST", "MAP", "PROVED", "DECISIONS", "COST", "CHANGES")))


def sources(ending: str) -> Iterator[pathlib.Path]:
    """The files of crates/ with this ending, but for edits."""
    return (p for p in sorted(pathlib.Path("crates").rglob(f"*{ending}")) if "must-fail" not in p.parts)


def defined() -> Definitions:
    """Every name that crates/ define, with the files that do."""
    found: Definitions = {}

    def add(name: str, path: pathlib.Path) -> None:
        found.setdefault(name, set()).add(str(path))

    for path in sources(".antt"):
        for line in path.read_text(encoding="utf-8").splitlines():
            if line.lstrip().startswith("--") or line.startswith("use "):
                continue
            names = TYPE.match(line) or SIGNATURE.match(line) or MARKED.match(line)
            for name in names[1].split() if names else []:
                add(name, path)
    for path in sources(".rt"):
        text = path.read_text(encoding="utf-8")
        for match in (*ITEM.finditer(text), *PART.finditer(text)):
            add(match[1], path)
    return found


def contracts() -> dict[tuple[str, str], str]:
    """The contract of each function, by its crate and name."""
    found: dict[tuple[str, str], str] = {}
    for path in sources(".rt"):
        for match in FUNCTION.finditer(path.read_text(encoding="utf-8")):
            key = (path.parts[1], match[1])
            found[key] = found.get(key, "") + match[0]
    return found


def files_at(place: str) -> set[str]:
    """The files that a place in a page names: specs/X, NAME/specs/X, NAME/proofs/X, NAME/specs, NAME."""
    parts = place.split("/")
    if parts[0] in ("specs", "proofs"):
        parts.insert(0, "foil_spec")
    folder = pathlib.Path("crates", *parts)
    if folder.is_dir():
        return {str(p) for p in folder.rglob("*") if p.is_file()}
    file = folder.with_suffix(".antt")
    return {str(file)} if file.is_file() else set()


def names_in(code: str) -> list[str]:
    """The names in one pair of backquotes that a definition must stand for."""
    names = [n for n in NAME.findall(code) if len(n.split("::")[-1]) > 2]
    return [n for n in names if n.split("::")[-1] not in OTHERS]


def is_name(code: str) -> bool:
    """Whether what stands in backquotes speaks of definitions, and not of a path, a command or a program's words."""
    return not re.search(r"[/.]\w|\.\.?/|^-|^[a-z_]+_test$|^struct ", code) and bool(names_in(code))


def faults_of_names(page: str, start: int, text: str, known: Definitions) -> Iterator[str]:
    """Names that nothing defines, or not the file that stands behind them."""
    crates = {p.name for p in pathlib.Path("crates").iterdir()}
    for number, line in enumerate(text.splitlines(), start):
        run: list[str] = []
        end = 0
        for match in re.finditer(r"`([^`]+)`|\(([\w/]+)((?:, [\w/]+)*)[):,]", line):
            between = line[end:match.start()]
            end = match.end()
            if match[1] is None:
                places = files_at(match[2])
                for name in run if places and between == " " else []:
                    if not known.get(name, set()) & places:
                        yield f"{page}:{number}: `{name}` is not in {match[2]}"
                run = []
                continue
            if not JOINED.fullmatch(between):
                run = []
            if not is_name(match[1]):
                run = []
                continue
            for name in names_in(match[1]):
                last = name.split("::")[-1]
                if last not in known and last not in crates:
                    yield f"{page}:{number}: `{name}` is defined nowhere"
                if "::" in name and not any(p.startswith(f"crates/{name.split('::')[0]}/") for p in known.get(last, ())):
                    yield f"{page}:{number}: `{name}` is not in the crate that it names"
            head = NAME.match(match[1])
            if head and "::" not in head[0]:
                run.append(head[0])


def faults_of_contracts(page: str, text: str, known: dict[tuple[str, str], str]) -> Iterator[str]:
    """Functions of which a page names a contract that they do not have."""
    pattern = re.compile(r"`(\w+)::(?:\w+::)*(\w+)` \((?:contract )?`(\w+)")
    for number, line in enumerate(text.splitlines(), 1):
        for crate, function, contract in pattern.findall(line):
            if (crate, function) in known and not cites(known[crate, function], contract):
                yield f"{page}:{number}: `{crate}::{function}` has no contract `{contract}`"


def cites(contract: str, name: str) -> bool:
    return re.search(rf"(?<![\w-]){re.escape(name)}(?![\w-])", contract) is not None


def faults_of_edits(text: str, known: dict[tuple[str, str], str]) -> Iterator[str]:
    """Edits that the table does not have, or has and there are not; and what refuses those of code."""
    rows = re.findall(r"^\| (\w+)/(\w+) \| (.*) \|$", text, re.M)
    listed = {f"{crate}/{edit}" for crate, edit, _ in rows}
    there = {f"{p.parts[1]}/{p.stem}" for p in pathlib.Path("crates").glob("*/must-fail/*.edit")}
    for name in sorted(there - listed):
        yield f"docs/PROVED.md: the edit {name} has no row"
    for name in sorted(listed - there):
        yield f"docs/PROVED.md: there is no edit {name}"
    for crate, edit, refused in rows:
        match = re.fullmatch(r"`(\w+)` of `(\w+)`", refused)
        if match and not cites(known.get((crate, match[2]), ""), match[1]):
            yield f"docs/PROVED.md: {crate}/{edit}: `{match[2]}` has no contract `{match[1]}`"


def faults_of_paths(page: str, text: str) -> Iterator[str]:
    """Links and paths that lead nowhere."""
    folder = pathlib.Path(page).parent
    for link in re.findall(r"\]\(([^)#\s]+)\)", text):
        if "://" not in link and not (folder / link).exists():
            yield f"{page}: the link {link} leads nowhere"
    for code in re.findall(r"`([^`\s]+)`", text):
        inside = re.fullmatch(r"(?:\./)?((?:crates|desk|docs|hosts|screen|bench|tools|samples)/[\w./-]+)", code)
        if inside and not pathlib.Path(inside[1]).exists() and not files_at(inside[1]):
            yield f"{page}: the path {code} leads nowhere"


def section(text: str, head: str) -> tuple[int, str]:
    """The part of a page below a head, with the number of its first line."""
    lines = text.splitlines()
    begin = next((i for i, line in enumerate(lines) if line.strip("# ") == head), len(lines))
    end = next((i for i in range(begin + 1, len(lines)) if lines[i].startswith("## ")), len(lines))
    return begin + 1, "\n".join(lines[begin:end])


def main() -> int:
    known, by_function = defined(), contracts()
    texts = {page: pathlib.Path(page).read_text(encoding="utf-8") for page in PAGES if pathlib.Path(page).is_file()}
    proved = texts["docs/PROVED.md"]
    start, claims = section(texts["README.md"], "What is proved")
    faults = [
        *faults_of_names("docs/PROVED.md", 1, proved.split("## Edits that must be refused")[0], known),
        *faults_of_names("README.md", start, claims, known),
        *faults_of_contracts("docs/PROVED.md", proved, by_function),
        *faults_of_edits(proved, by_function),
        *(fault for page, text in texts.items() for fault in faults_of_paths(page, text)),
    ]
    for fault in faults:
        print(fault)
    return 1 if faults else 0


if __name__ == "__main__":
    sys.exit(main())
