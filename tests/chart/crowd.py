"""A year of 200 events, of which a chart shows the twelve largest: with one argument writes table and statement
into a folder, with two holds the chart to both.
"""

import os
import sys

from picture import Picture

# 37 has no factor in common with 201: every multiple of 10 up to 2,000 once, out of order.
GROSS = [10 * (37 * day % 201) for day in range(1, 201)]


def write(folder):
    os.makedirs(folder, exist_ok=True)
    with open(os.path.join(folder, "programme.txt"), "w") as table:
        table.write("(cat (band 5000 1000) (deduct 0) (back 0 0) (placed 8100))\n")
    amounts = "(gross {0}) (ceded 0) (risk 0) (cat 0) (net {0}) (premium 0))\n"
    with open(os.path.join(folder, "statement.txt"), "w") as statement:
        for day, gross in enumerate(GROSS, 1):
            statement.write("(event %d " % day + amounts.format(gross))
        statement.write("(layer cat 1 (deductible 0) (cover 1000) (recovered 0) (premium 0))\n")
        statement.write("(total " + amounts.format(201000))


def check(path):
    with open(path, "rb") as file:
        picture = Picture(file.read())
    shown = [(str(day), "{:,}".format(gross)) for day, gross in enumerate(GROSS, 1) if gross > 1880]
    found = [tuple(picture.texts("event-" + name)[1:3]) for name in "ABCDEFGHIJKL"]
    if len(shown) != 12 or found != shown:
        sys.exit("chart: the twelve largest are %s, not %s" % (found, shown))
    # 188 events of 10 to 1,880: 10 x 188 x 189 / 2
    rows = " ".join(word or "-" for word in picture.texts("events"))
    for words in ("The 12 largest of 200 by gross", "others - 177,660 0 0 - 0 177,660 0",
                  "total - 201,000 0 0 - 0 201,000 0"):
        if words not in rows:
            sys.exit("chart: no row has: " + words)
    print("chart: 12 events of 200 compared, the others added up")


if __name__ == "__main__":
    check(sys.argv[2]) if len(sys.argv) == 3 else write(sys.argv[1])
