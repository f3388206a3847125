"""Elements of an SVG picture, as lines of text, and the sizes that its panels share."""

from typing import List, NamedTuple
from xml.sax.saxutils import escape

WIDTH = 1120
MARGIN = 20
LINE = 15

STYLE = """
text { font-family: "DejaVu Sans", Verdana, Arial, Helvetica, sans-serif; font-size: 12px; fill: #111; }
.title { font-size: 19px; font-weight: bold; }
.heading { font-size: 15px; font-weight: bold; }
.strong { font-weight: bold; }
.small { font-size: 11px; }
.right { text-anchor: end; }
.middle { text-anchor: middle; }
.name { paint-order: stroke; stroke: #fff; stroke-width: 3; }
.paper { fill: #fff; }
.band { fill: #fff; stroke: #111; }
.placed { fill: #9dbfe0; stroke: #111; }
.subject { fill: #7a1f1f; }
.reach { fill: none; stroke: #7a1f1f; stroke-dasharray: 1 4; }
.axis, .cut { fill: none; stroke: #111; }
.gap { fill: none; stroke: #fff; stroke-width: 8; }
.grid { stroke: #ccc; }
.leader { fill: none; stroke: #777; }
.bar { stroke: #111; stroke-width: 0.5; }
.ceded { fill: #12304f; }
.risk { fill: #3f8088; }
.cat { fill: #e3ab3f; }
.net { fill: #fff; }
"""


class Panel(NamedTuple):
    name: str
    elements: List[str]
    height: float


def pixels(number):
    return ("%.2f" % number).rstrip("0").rstrip(".")


def rectangle(kind, x, y, width, height):
    return '<rect class="%s" x="%s" y="%s" width="%s" height="%s"/>' % (
        (kind,) + tuple(pixels(number) for number in (x, y, width, height)))


def text(x, y, words, kind="small"):
    return '<text class="%s" x="%s" y="%s">%s</text>' % (kind, pixels(x), pixels(y), escape(words))


def path(kind, points):
    return '<polyline class="%s" points="%s"/>' % (kind, " ".join("%s,%s" % (pixels(x), pixels(y)) for x, y in points))


def group(name, elements, place=""):
    return ['<g id="%s"%s>' % (name, place)] + elements + ["</g>"]


def headed(heading, notes):
    return [text(MARGIN, 0, heading, "heading")] + [
        text(MARGIN, LINE * line, note) for line, note in enumerate(notes, 1)]


def bar(parts, x, y, width, most):
    """Parts of an amount side by side, where `most` fills the width."""
    drawn = []
    for kind, amount in parts:
        length = width * amount / most
        drawn += [rectangle("bar " + kind, x, y, length, 7)] if amount else []
        x += length
    return drawn
