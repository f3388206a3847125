"""Looks at every chart given: well-formed, described, drawn from nothing outside, names used once, and no text on
another text, on a rectangle, under the white of a zigzag or past the edge. Widths of texts are those of a wide font,
estimated a little too large.
"""

import re
import sys

from picture import SVG, Picture

SIZES = {"title": 19, "heading": 15, "strong": 12}
NARROW = set(" ,.;:()ijl'")
WHITE = 8  # the width of the white line under a zigzag


def width(words, kind):
    size = SIZES.get(kind.split()[0], 11)
    bold = 1.12 if kind in SIZES else 1
    return size * bold * sum(0.34 if letter in NARROW else 0.645 for letter in words)


def box(element, x, y):
    """Left, upper, right and lower end of a text."""
    kind, words = element.get("class"), element.text or ""
    size, length = SIZES.get(kind.split()[0], 11), width(words, kind)
    left = x - {"right": length, "middle": length / 2}.get(kind.split()[-1], 0)
    return left, y - 0.76 * size, left + length, y + 0.24 * size


def placed(element, tags, y=0):
    """All elements of these kinds as they are drawn one after another, with the height at which their group stands."""
    y += float((re.findall(r"translate\(0 ([0-9.]+)\)", element.get("transform") or "") or [0])[0])
    if element.tag in [SVG + tag for tag in tags]:
        yield element, y
    for child in element:
        yield from placed(child, tags, y)


def text_box(element, y):
    return element.text, box(element, float(element.get("x")), y + float(element.get("y")))


def texts_of(picture):
    return [text_box(element, y) for element, y in placed(picture.root, ["text"]) if element.text]


def rectangles_of(picture):
    for element, y in placed(picture.root, ["rect"]):
        x, top, across, down = (float(element.get(name)) for name in ("x", "y", "width", "height"))
        if element.get("class") != "paper":
            yield element.get("class"), (x, y + top, x + across, y + top + down)


def white_of(zigzag, y):
    """What the white line of a zigzag paints over."""
    across, down = zip(*(map(float, point.split(",")) for point in zigzag.get("points").split()))
    return min(across), y + min(down) - WHITE / 2, max(across), y + max(down) + WHITE / 2


def painted_over(picture):
    """Texts that a zigzag drawn after them paints over."""
    earlier = []
    for element, y in placed(picture.root, ["text", "polyline"]):
        if element.text:
            earlier.append(text_box(element, y))
        elif element.get("class") == "gap":
            white = white_of(element, y)
            yield from (words for words, place in earlier if meet(place, white))


def meet(one, other):
    return one[0] < other[2] and other[0] < one[2] and one[1] < other[3] and other[1] < one[3]


def fault_of(data):
    picture = Picture(data)
    wide, high = (float(picture.root.get(name)) for name in ("width", "height"))
    if picture.root[0].tag != SVG + "title" or picture.root[1].tag != SVG + "desc":
        return "no title or no description"
    if re.search(rb"href|url\(|@import|<script|<image", data) or data.count(b"http") != 1:
        return "something from outside"
    if len(re.findall(rb' id="', data)) != len(picture.named):
        return "a name used twice"
    for words in painted_over(picture):
        return "%s under a zigzag" % words
    texts, rectangles = texts_of(picture), list(rectangles_of(picture))
    for place, (words, one) in enumerate(texts):
        if one[0] < 0 or one[1] < 0 or one[2] > wide or one[3] > high:
            return "%s past the edge" % words
        for name, other in texts[place + 1:] + rectangles:
            if meet(one, other):
                return "%s on %s" % (words, name)
    return None


def main(paths):
    for path in paths:
        with open(path, "rb") as file:
            fault = fault_of(file.read())
        if fault:
            sys.exit("chart: %s has %s" % (path, fault))
    print("chart: the layout of %d pictures looked at" % len(paths))


if __name__ == "__main__":
    main(sys.argv[1:])
