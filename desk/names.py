"""The names that remarks give: `# key: NAME` to the patch on its line, `# net: NAME` to its track or leg. A line with
both has `# key: NAME; net: NAME`. They are for people: no job file has them."""
import re

# what each word names
NAMED = {"key": ("patch",), "net": ("track", "leg")}
# the longest that a name is shown
LONGEST = 40


def given(line):
    """The names in a line's remark: pairs of the word and the name."""
    found = (re.fullmatch(r"(key|net):(.*)", part.strip()) for part in line.remark.split(";"))
    return [(match[1], plain(match[2])) for match in found if match and plain(match[2])]


def plain(name):
    """A name in printed letters and single blanks, and not too long."""
    shown = " ".join("".join(letter if letter.isprintable() else " " for letter in name).split())
    return shown if len(shown) <= LONGEST else shown[:LONGEST - 2] + ".."


def steps_on(line):
    """The words of the steps on a line."""
    return [part.split()[0] for part in line.said.split(",")]


def names_of(text):
    """The names of a text's steps, by the place of the record and the word of the step."""
    return {(line.place, step): name for line in text.lines for word, name in given(line)
            for step in steps_on(line) if step in NAMED[word]}


def strays(text):
    """The names that name nothing: pairs of a line's number and a message."""
    return [(line.number, "`%s: %s` names no %s: there is none on this line" % (word, name, NAMED[word][0]))
            for line in text.lines for word, name in given(line) if not set(steps_on(line)) & set(NAMED[word])]
