"""Holds three charts to figures worked out by hand: where bands begin and end, how wide they are shaded, which label
is joined to which band, how high the subject of each event stands, where zigzags are, how long a treaty's bar is, how
an event's bar is parted. Arguments: the charts of hurricane-sidney, own and cut.
"""

import sys

from picture import Picture

checks = 0


def near(found, expected, what, tolerance=0.02):
    global checks
    checks += 1
    if abs(found - expected) > tolerance:
        sys.exit("chart: %s is %s, not %s" % (what, found, expected))


def same(found, expected, what):
    global checks
    checks += 1
    if found != expected:
        sys.exit("chart: %s is %s, not %s" % (what, found, expected))


def at(stretch, y, amount, what):
    """The height stands for the amount, to a fiftieth of a pixel."""
    near(stretch.amount(y), amount, what, 0.02 * stretch.cents_of_a_pixel)


def band(picture, name, stretch, attachment, end, share):
    whole, placed = (picture.rectangle(name, kind) for kind in ("band", "placed"))
    at(stretch, whole.bottom, attachment, name + "'s lower end")
    at(stretch, whole.y, end, name + "'s upper end")
    near(placed.width / whole.width, share, name + "'s shaded width", 0.0002)
    same((placed.x, placed.y, placed.height), (whole.x, whole.y, whole.height), name + "'s shaded place")
    joined(picture, name, whole)


def joined(picture, name, whole):
    """One line leads from the middle of the band's right side to its label: four lines of text, the first in bold."""
    tier, place = name.split("-")
    first = [y for words, _, y in picture.places(tier, "strong") if words.startswith("%s %s: " % (tier, place))]
    same(len(first), 1, "the count of %s's labels" % name)
    leaders = [line for line in picture.lines(tier, "leader") if first[0] - 12 < line[-1][1] < first[0] + 48]
    same(len(leaders), 1, "the count of lines to %s's label" % name)
    near(leaders[0][0][0], whole.x + whole.width, "the left end of %s's line" % name)
    near(leaders[0][0][1], (whole.y + whole.bottom) / 2, "the height of %s's line" % name)


def zigzags(picture, tier):
    """One between each two stretches, as wide as axis and bands, on a white line."""
    stretches, found = picture.stretches(tier), picture.lines(tier, "cut")
    same(len(found), len(stretches) - 1, "the count of zigzags")
    same(picture.lines(tier, "gap"), found, "the white under the zigzags")
    axis, whole = picture.lines(tier, "axis")[0][0][0], picture.rectangle(tier + "-1", "band")
    for line, lower, upper in zip(found, stretches, stretches[1:]):
        same(all(upper.bottom < y < lower.top for _, y in line), True, "that a zigzag is between its stretches")
        same(line[0][0] < axis and line[-1][0] > whole.x + whole.width, True, "that a zigzag is wide enough")


def linear(picture, tier, top):
    """The tier's axis is one stretch from 0, said to be linear, and every label of it is at its place."""
    stretches = picture.stretches(tier)
    same([(stretch.low, stretch.high) for stretch in stretches], [(0, top)], tier + "'s axis")
    same("Height: cents, linear from 0." in picture.texts(tier), True, tier + "'s note on its axis")
    zigzags(picture, tier)
    for amount, y in picture.labels(tier):
        at(stretches[0], y, amount, "the label %d" % amount)
    return stretches[0]


def subject(picture, name, stretch, amount):
    """A column from the axis's foot to the amount, a dotted line from there to the bands, and its letter above."""
    column = picture.rectangle("subject-" + name, "subject")
    at(stretch, column.y, amount, "subject of " + name)
    near(column.bottom, picture.stretches("cat")[0].bottom, "the foot of %s's column" % name)
    tower = picture.rectangle("cat-1", "band")
    same(picture.lines("subject-" + name, "reach"),
         [[(column.x, column.y), (tower.x + tower.width, column.y)]], "the dotted line of " + name)
    letters = [(x, y) for words, x, y in picture.places("cat", "small name middle") if words == name]
    same(len(letters), 1, "the count of letters " + name)
    near(letters[0][0], column.x + column.width / 2, "the middle of the letter " + name)
    near(letters[0][1], column.y - 4, "the foot of the letter " + name)


def row(picture, name, *words):
    same(picture.texts("event-" + name), [name] + list(words), "row of " + name)


def sidney(picture):
    axis = linear(picture, "cat", 400000000)
    band(picture, "cat-1", axis, 25000000, 100000000, 1)
    band(picture, "cat-2", axis, 100000000, 250000000, 0.8)
    band(picture, "cat-3", axis, 250000000, 400000000, 0.72)
    heights = [picture.rectangle("cat-%d" % place, "band").height for place in (1, 2, 3)]
    for height, share in zip(heights, (75, 150, 150)):
        near(height / sum(heights), share / 375, "a band's part of the tower", 0.0002)
    subject(picture, "A", axis, 350000000)
    row(picture, "A", "230", "350,000,000", "0", "0", "350,000,000", "192,000,000", "158,000,000", "44,400,000")
    for words in ("cat 3: 150,000,000 xs 250,000,000, 72% placed", "yearly deductible 75,000,000, left 0",
                  "1 reinstatement at 50% of 75,000,000; cover left 150,000,000",
                  "recovered 72,000,000; reinstatement premium 14,400,000"):
        same(picture.texts("cat").count(words), 1, "the count of: " + words)
    same([picture.has(name) for name in ("treaties", "risk", "event-B")], [False] * 3, "what H1 has not")


def own(picture):
    risk, cat = linear(picture, "risk", 1000000), linear(picture, "cat", 5000000)
    band(picture, "risk-1", risk, 400000, 1000000, 0.9)
    band(picture, "cat-1", cat, 1000000, 3000000, 0.6)
    band(picture, "cat-2", cat, 4000000, 5000000, 0.75)
    subject(picture, "A", cat, 2310000)
    subject(picture, "B", cat, 4610000)
    subject(picture, "C", cat, 200000)
    row(picture, "A", "30", "4,100,000", "800,000", "990,000", "2,310,000", "486,000", "1,824,000", "58,421")
    row(picture, "B", "200", "4,700,000", "0", "90,000", "4,610,000", "1,657,500", "2,952,500", "25,651")
    row(picture, "C", "250", "500,000", "300,000", "0", "200,000", "0", "200,000", "0")
    for words in ("2 reinstatements at 50% and 120% of 120,000; cover left 3,190,000",
                  "recovered 1,686,000; premium by amount and time 39,072",
                  "recovered 457,500; reinstatement premium 0"):
        same(picture.texts("cat").count(words), 1, "the count of: " + words)
    whole = 1080  # the width of the largest gross, 4,700,000
    for name, parts in (("A", (("ceded", 800000), ("risk", 990000), ("cat", 486000), ("net", 1824000))),
                        ("B", (("risk", 90000), ("cat", 1657500), ("net", 2952500))),
                        ("C", (("ceded", 300000), ("net", 200000)))):
        x = 20
        for kind, amount in parts:
            found = picture.rectangle("event-" + name, "bar " + kind)
            near(found.width, whole * amount / 4700000, "%s of %s" % (kind, name))
            near(found.x, x, "the place of %s of %s" % (kind, name), 0.05)
            x += found.width
    same(picture.texts("treaties")[2:], ["treaty 2", "quota share, 25% ceded, no capacity, no event limit",
                                         "ceded 800,000", "treaty 5",
                                         "surplus, retention 300,000, 2 lines, no event limit", "ceded 300,000"],
         "the treaties")
    bars = picture.rectangles("treaties", "bar ceded")
    same([found.x for found in bars], [840, 840], "the left ends of the treaties' bars")
    near(bars[0].width, 260, "the bar of treaty 2, which ceded most")
    near(bars[1].width, 97.5, "the bar of treaty 5: 300,000 of 800,000 is three eighths")
    for found, (_, _, y) in zip(bars, picture.places("treaties", "strong")):
        same(y - 9 < found.y < found.bottom < y, True, "that a treaty's bar is in its row")


def cut(picture):
    """Bands of 500, 3,000 and 40,000,000 cents: two scales, and a cut between them."""
    lower, upper = picture.stretches("cat")
    same((lower.low, lower.high, upper.low, upper.high), (0, 5000, 5000, 47000000), "the stretches' ends")
    same("Height: cents, in 2 stretches parted by zigzags; each is linear and has a scale of its own."
         in picture.texts("cat"), True, "the note on the axis")
    band(picture, "cat-1", lower, 1000, 1500, 0.3)
    band(picture, "cat-2", lower, 2000, 5000, 0.8)
    band(picture, "cat-3", upper, 7000000, 47000000, 0.4)
    heights = [picture.rectangle("cat-%d" % place, "band").height for place in (1, 2, 3)]
    same(min(heights) >= 7, True, "that all are seen")
    zigzags(picture, "cat")
    subject(picture, "A", lower, 1250)
    subject(picture, "B", upper, 3400000)
    subject(picture, "C", upper, 37000000)


def main(paths):
    for path, check in zip(paths, (sidney, own, cut)):
        with open(path, "rb") as file:
            check(Picture(file.read()))
    print("chart: %d figures of 3 pictures compared" % checks)


if __name__ == "__main__":
    main(sys.argv[1:])
