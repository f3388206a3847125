"""Reads a chart back: its rectangles, its texts and the scale of a tower."""

import xml.etree.ElementTree as tree
from typing import NamedTuple

SVG = "{http://www.w3.org/2000/svg}"


class Rectangle(NamedTuple):
    x: float
    y: float
    width: float
    height: float

    @property
    def bottom(self):
        return self.y + self.height


class Stretch(NamedTuple):
    """A part of a money axis with the amounts at its ends."""

    low: int
    high: int
    bottom: float
    top: float

    @property
    def cents_of_a_pixel(self):
        return (self.high - self.low) / (self.bottom - self.top)

    def amount(self, y):
        return self.low + (self.bottom - y) * self.cents_of_a_pixel


class Picture:
    def __init__(self, data):
        self.root = tree.fromstring(data)
        self.named = {element.get("id"): element for element in self.root.iter() if element.get("id")}

    def has(self, name):
        return name in self.named

    def rectangle(self, group, kind):
        """The one rectangle of this class in a group."""
        found = self.rectangles(group, kind)
        assert len(found) == 1, "%s has %d rectangles %s" % (group, len(found), kind)
        return found[0]

    def rectangles(self, group, kind):
        return [Rectangle(*(float(element.get(name)) for name in ("x", "y", "width", "height")))
                for element in self.of_class(group, "rect", kind)]

    def of_class(self, group, tag, kind):
        return [element for element in self.named[group].iter(SVG + tag) if element.get("class") == kind]

    def lines(self, group, kind):
        """The points of each line of this class in a group."""
        return [[tuple(map(float, point.split(","))) for point in element.get("points").split()]
                for element in self.of_class(group, "polyline", kind)]

    def places(self, group, kind):
        """The texts of this class in a group with the points that they stand at."""
        return [(element.text, float(element.get("x")), float(element.get("y")))
                for element in self.of_class(group, "text", kind)]

    def texts(self, group):
        return [element.text for element in self.named[group].iter(SVG + "text")]

    def labels(self, tier):
        """The amounts beside the axis with the heights that they stand at."""
        return [(int(words.replace(",", "")), y - 4) for words, _, y in self.places(tier, "small right")]

    def stretches(self, tier):
        """The axis from the bottom up."""
        found = []
        for (_, bottom), (_, top) in self.lines(tier, "axis"):
            within = [(amount, y) for amount, y in self.labels(tier) if top - 0.01 <= y <= bottom + 0.01]
            found.append(Stretch(min(within)[0], max(within)[0], bottom, top))
        return found
