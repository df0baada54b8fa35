"""What came of a text: its job run by the proved program, the foil that it leaves, and all that is said of it."""
from pathlib import Path
from typing import List, NamedTuple

from desk import advice, checks, console, foils, lines, names, program, textform, words


class Account(NamedTuple):
    """A text whose job was run: by which program, what it wrote, what that says, the foil, and the names of steps."""
    text: textform.Text
    path: Path
    written: str
    run: lines.Run
    foil: foils.Foil
    names: dict

    def rows(self, table):
        """What came of each line, with what would help with refused steps. `table` has the words of refusals."""
        notes = advice.notes(self.text, self.run, self.foil, self.path)
        return words.rows(self.text, self.run, table, self.names, notes)

    def page(self, table, width=console.WIDTH, quiet=False):
        """The same as lines of a width, those of refusals only where that is asked for; then the check list."""
        said = words.page([row for row in self.rows(table) if row.refused or not quiet], width)
        to_check = checks.page(self.foil, width) if self.is_done else ""
        return "\n".join(part for part in (said, to_check) if part)

    @property
    def is_done(self):
        """Whether the job came to its end mark, so that it leaves a foil."""
        return self.run.strips is not None


def account_of(text, path):
    """Runs the job of a text by the program at a path: what came of it."""
    written = program.run(path, text.job)
    run, named = lines.run_of(text.job, written), names.names_of(text)
    return Account(text, path, written, run, foils.foil_of(run, named), foils.called_by(run, named))


def tell_strays(name: str, text: textform.Text) -> None:
    """Says which names in the remarks of a text name nothing."""
    for told in strays_told(name, text):
        console.complain(told)


def strays_told(name: str, text: textform.Text) -> List[str]:
    """Which names in the remarks of a text name nothing, in words."""
    return [f"{name}, line {number}: {message}" for number, message in names.strays(text)]
