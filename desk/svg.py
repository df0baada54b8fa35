"""Elements of an SVG, and its style sheet: one look for paper, and one for a dark window."""
import xml.etree.ElementTree as ET

from desk import colours

# classes: page, sheet (the foil), edge with its hatch, clearance, kept (where no track's middle may lie), strip, patch,
# c0 to c5 (tracks), refused with its halo, dim (refused, where there are many), missing (a refused patch or leg), near
# (a broad unseen line for the pointer), outline, tick, label with its leader, key (the name of a patch), faint (a label
# of what is dim), head
STYLE = """
text { font: 11px sans-serif; fill: #22272d }
.head { font-size: 14px; font-weight: bold }
.tick-x { text-anchor: middle }
.tick-y { text-anchor: end }
.page, .sheet { fill: #ffffff }
.edge { fill: url(#hatch) }
.hatch { stroke: #9aa4ae }
.kept { fill: #f8f1e4 }
.clearance { fill: #e4e8ec }
.strip { fill: #f2f9f5; stroke: #4d8f7a }
.patch { fill: #a7b0b9; stroke: #616b75 }
.outline { fill: none; stroke: #22272d }
.tick, .leader { stroke: #717b85; stroke-width: 1px }
.refused { stroke: #000000; fill: none }
.missing { stroke: #000000; fill: none }
.dim { stroke: #848e98; fill: none }
.halo { stroke: #ffffff; fill: none }
.near { stroke: #ffffff; stroke-opacity: 0 }
.label, .key, .faint { text-anchor: middle; pointer-events: none;
fill: #000000; stroke: #ffffff; stroke-width: 3px; stroke-linejoin: round; paint-order: stroke }
.label { font-weight: bold }
.key { stroke: #a7b0b9; stroke-width: 2px }
.faint { font-size: 9px; fill: #5b656f; stroke-width: 2px }
%s
@media screen and (prefers-color-scheme: dark) {
text { fill: #d7dde3 }
.page { fill: #101316 }
.sheet { fill: #191d22 }
.hatch { stroke: #56606b }
.kept { fill: #302a1e }
.clearance { fill: #2f363f }
.strip { fill: #15251f; stroke: #57a98f }
.patch { fill: #5c6670; stroke: #a3aeb9 }
.outline { stroke: #d7dde3 }
.tick, .leader { stroke: #8d97a1 }
.refused, .missing { stroke: #ffffff }
.dim { stroke: #75808b }
.halo { stroke: #101316 }
.label, .key, .faint { fill: #ffffff; stroke: #101316 }
.key { stroke: #5c6670 }
.faint { fill: #aab4be }
%s
}
"""


def style():
    """The style sheet, with a rule for each colour of tracks."""
    paper, dark = ("\n".join(".c%d { fill: %s; stroke: %s }" % (at, colour, colour) for at, colour in enumerate(six))
                   for six in (colours.PAPER, colours.DARK))
    return STYLE % (paper, dark)


def page(wide, high, title):
    """A picture with nothing on it yet."""
    size = {"width": short(wide), "height": short(high), "viewBox": "0 0 %s %s" % (short(wide), short(high))}
    svg = ET.Element("svg", {"xmlns": "http://www.w3.org/2000/svg", **size})
    put(svg, "title", title)
    put(svg, "style", style())
    put(svg, "rect", kind="page", width=wide, height=high)
    return svg


def put(parent, tag, text=None, title=None, **attributes):
    """A new element. `kind` is its class, an underscore in a name stands for a hyphen, and numbers are shortened."""
    given = {}
    for name, value in attributes.items():
        given["class" if name == "kind" else name.replace("_", "-")] = value if isinstance(value, str) else short(value)
    element = ET.SubElement(parent, tag, given)
    element.text = text
    if title is not None:
        put(element, "title", title)
    return element


def put_box(parent, box, kind, title=None, **attributes):
    """A box as a rectangle."""
    x0, y0, x1, y1 = box
    return put(parent, "rect", title=title, x=x0, y=y0, width=x1 - x0, height=y1 - y0, kind=kind, **attributes)


def put_hatch(parent, step, wide):
    """The pattern of the edge zone: slanting lines of a width, a step apart."""
    hatch = put(put(parent, "defs"), "pattern", id="hatch", width=step, height=step, patternUnits="userSpaceOnUse",
                patternTransform="rotate(45)")
    put(hatch, "line", x2=0, y2=step, kind="hatch", stroke_width=wide)


def short(number):
    """A number with at most three decimals."""
    return ("%.3f" % number).rstrip("0").rstrip(".")


def written(svg):
    """The picture as text."""
    ET.indent(svg, "")
    return ET.tostring(svg, encoding="unicode") + "\n"
