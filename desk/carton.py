"""The page for the carton: an HTML page for print, which stands alone. It has the order and the date, for whom it is
where the text says so, the picture, the lines of the slip as they are with the nets' names beside them, and what is
open or to be checked.

All of it stands in a table whose head has the order's name, and the slip in one whose head has the names of its
columns: a printer repeats such heads on every sheet. The picture is as high as leaves the rest its place on one sheet,
within bounds."""
import base64
import re
from html import escape
from typing import Dict, List, NamedTuple, Sequence

from desk import checks, foils

# what stands above the columns of a slip
COLUMNS = "net legs  length     x     y"
# what a word of the text's remark is called on the page
CALLED = {"order": "Order", "customer": "Customer", "quantity": "Quantity"}
# the sheet's height within its margins for the smaller of Letter and A4, the picture's bounds, a line and a heading, in
# millimetres; how many letters of a list fit a line of a column
SHEET, HIGHEST, LOWEST, LINE, HEADING, LETTERS = 250, 125, 60, 4.6, 11, 44

PAGE = """<!DOCTYPE html>
<html lang="en">
<head>
<meta charset="utf-8">
<meta name="color-scheme" content="light">
<title>%(name)s</title>
<style>
@page { margin: 12mm }
body { font: 10pt sans-serif; color: #000000; background: #ffffff; max-width: 180mm; margin: 0 auto }
table { border-collapse: collapse }
.page, .page > thead > tr > td { width: 100%% }
td, th { padding: 0; vertical-align: top; text-align: left; font-weight: normal }
header { display: flex; justify-content: space-between; align-items: baseline; border-bottom: 1px solid #000000;
  margin-bottom: 2mm }
h1 { font-size: 18pt; margin: 0 }
h2 { font-size: 11pt; margin: 3mm 0 1mm; break-after: avoid }
p { margin: 0 }
ul { margin: 0; columns: 2 }
img { display: block; max-width: 100%%; max-height: %(high)dmm; margin: 2mm auto }
.slip td, .slip th { white-space: pre; font: 10pt monospace; line-height: 4.3mm; padding-right: 4mm }
.slip th { color: #555555 }
li, tr, p { break-inside: avoid }
.page > tbody > tr { break-inside: auto }
</style>
</head>
<body>
<table class="page">
<thead><tr><td><header><h1>%(name)s</h1><time>%(date)s</time></header></td></tr></thead>
<tbody><tr><td>
%(said)s
%(open)s
%(checks)s
<img alt="The foil of %(name)s" src="data:image/svg+xml;base64,%(picture)s">
%(keys)s
<h2>Slip</h2>
<table class="slip">
<thead><tr><th>%(columns)s</th><th></th></tr></thead>
<tbody>
%(slip)s
</tbody>
</table>
</td></tr></tbody>
</table>
</body>
</html>
"""


class Order(NamedTuple):
    """An order: its name, its date, what the text says of it besides, the foil, its slip and its picture, and the whole
    check list."""
    name: str
    date: str
    said: Dict[str, str]
    foil: foils.Foil
    slip: str
    drawn: str
    found: Sequence[checks.Finding]


def page(order: Order) -> str:
    """The page of an order."""
    open_tracks = [finding.where for finding in order.found if finding.matter == "open"]
    others = [f"{finding.matter}: {finding.where}" for finding in order.found if finding.matter != "open"]
    named = order.foil.keys
    keys = ["%s: patch %d %d %d %d" % (named[box], *box) for box in dict.fromkeys(order.foil.patches) if box in named]
    said = " · ".join(f"{CALLED[word]}: {value}" for word, value in order.said.items())
    lines = order.slip.splitlines()
    low = sum(high_of(part) for part in (open_tracks or ["none"], others, keys)) + LINE * (len(lines) + bool(said))
    return PAGE % {
        "name": escape(order.name), "date": escape(order.date), "columns": COLUMNS,
        "high": max(LOWEST, min(HIGHEST, SHEET - 3 * HEADING - low)),
        "picture": base64.b64encode(order.drawn.encode()).decode("ascii"),
        "said": f"<p>{escape(said)}</p>" if said else "",
        "open": listed("Open tracks", open_tracks) or "<h2>No track is open</h2>",
        "checks": listed("To be checked", others), "keys": listed("Keys", keys),
        "slip": "\n".join(rows_of(order, lines))}


def rows_of(order: Order, lines: List[str]) -> List[str]:
    """The lines of the slip as rows, each with the name of its net beside it."""
    named = {net.net: net.name for net in order.foil.nets}
    return [f"<tr><td>{escape(line)}</td><td>{escape(named[int(line[:3])])}</td></tr>" for line in lines]


def high_of(lines: Sequence[str]) -> float:
    """How high a list is at most, with its heading, in millimetres."""
    many = sum(-(-len(line) // LETTERS) for line in lines)
    return HEADING + LINE * ((many + 1) // 2) if lines else 0


def listed(head: str, lines: Sequence[str]) -> str:
    """A list under a heading; empty where there is nothing in it."""
    items = "\n".join(f"<li>{escape(line)}</li>" for line in lines)
    return f"<h2>{head}</h2>\n<ul>\n{items}\n</ul>" if lines else ""


def undated(content: bytes) -> bytes:
    """A page without its date: what is compared of it."""
    return re.sub(rb"<time>[^<]*</time>", b"<time></time>", content)
