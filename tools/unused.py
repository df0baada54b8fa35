#!/usr/bin/env python3
"""Names of screen/page/*.js that nothing uses: tools/unused.py, from the project's root. It reads the modules as text:
an import or a declaration whose name stands nowhere else in its module, and an export that no other module imports.
Prints a line for each, and ends with 1 where there is one."""
from __future__ import annotations

import pathlib
import re
import sys
from collections.abc import Iterator

PAGE = pathlib.Path("screen/page")
QUIET = re.compile(r"//[^\n]*|/\*.*?\*/", re.S)
IMPORT = re.compile(r"^import (?:\{([^}]*)\}|\* as (\w+)|(\w+)) from \"\./([\w.]+)\";", re.M)
DECLARED = re.compile(r"^\s*(export )?(?:async )?(?:const|let|function\*?|class) (\w+|\{[^}=]*\}|\[[^\]=]*\])", re.M)


def names_of(list_of_names: str) -> list[tuple[str, str]]:
    """The names of a list in braces, each with what it is called here."""
    pairs = [part.split(" as ") for part in re.findall(r"[\w$]+(?: as [\w$]+)?", list_of_names)]
    return [(pair[0], pair[-1]) for pair in pairs]


def uses(name: str, text: str) -> int:
    """How often a name stands in a module."""
    return len(re.findall(rf"(?<![\w$]){re.escape(name)}(?![\w$])", text))


def faults(texts: dict[str, str]) -> Iterator[str]:
    imported: set[tuple[str, str]] = set()
    for module, text in texts.items():
        for braces, whole, default, source in IMPORT.findall(text):
            names = names_of(braces) if braces else [(whole or default,) * 2]
            for name, here in names:
                imported.add((source, "*" if whole else name))
                if uses(here, text) < 2:
                    yield f"{module}: {here} is imported and not used"
    for module, text in texts.items():
        for export, declared in DECLARED.findall(text):
            for _, name in names_of(declared):
                if uses(name, text) > 1:
                    continue
                if not export:
                    yield f"{module}: {name} is declared and not used"
                elif not {(module, name), (module, "*")} & imported:
                    yield f"{module}: {name} is exported and nothing imports it"


def main() -> int:
    texts = {p.name: QUIET.sub("", p.read_text(encoding="utf-8")) for p in sorted(PAGE.glob("*.js"))}
    found = list(faults(texts))
    for fault in found:
        print(f"screen/page/{fault}")
    return 1 if found else 0


if __name__ == "__main__":
    sys.exit(main())
