#!/usr/bin/env python3
"""Draws a programme and a statement as SVG: chart.py TABLE < STATEMENT. It reads nothing else."""

import os
import sys
from xml.sax.saxutils import escape

sys.dont_write_bytecode = True  # nothing is left beside an installed script
sys.path.insert(0, os.path.dirname(os.path.realpath(__file__)))  # PYTHONSAFEPATH leaves the script's folder out

from drawing.elements import MARGIN, STYLE, WIDTH, Panel, group, headed, pixels, rectangle, text
from drawing.rows import events_drawn, largest, treaties_drawn
from drawing.texts import AMOUNTS, TIERS, Fault, lines_of, read_statement, read_table
from drawing.tower import tower
from drawing.wording import cents, counted


def contents(picture):
    tiers = [layer.band.tier for layer in picture.layers]
    counts = [counted(len(picture.treaties), "proportional treaty", "proportional treaties")]
    counts += [counted(tiers.count("risk"), "risk layer"), counted(tiers.count("cat"), "catastrophe layer")]
    counts.append(counted(len(picture.events), "event"))
    return ", ".join(counts).capitalize()


def description(picture):
    amounts = ", ".join("%s %s" % (name, cents(getattr(picture.total, name))) for name in AMOUNTS)
    return "%s. In this run, in cents: %s." % (contents(picture), amounts)


def panels_of(picture):
    marks = largest(picture.events)
    panels = [treaties_drawn(picture.treaties)] if picture.treaties else []
    for tier in TIERS:
        layers = [layer for layer in picture.layers if layer.band.tier == tier]
        panels += [tower(tier, layers, marks if tier == "cat" else [])] if layers else []
    if not picture.layers:
        panels.append(Panel("none", headed("No layers", ["What treaties leave of a loss is net."]), 52))
    return panels + [events_drawn(picture.events, marks, picture.total)]


def svg(picture):
    title = "Reinsurance programme and statement"
    drawn, y = [text(MARGIN, 34, title, "title")], 92
    drawn.append(text(MARGIN, 54, contents(picture) + ". All amounts are whole cents."))
    for panel in panels_of(picture):
        drawn += group(panel.name, panel.elements, ' transform="translate(0 %s)"' % pixels(y))
        y += panel.height
    head = '<svg xmlns="http://www.w3.org/2000/svg" width="{0}" height="{1}" viewBox="0 0 {0} {1}" role="img" ' \
           'aria-labelledby="title description">'.format(WIDTH, pixels(y))
    return "\n".join([
        head, '<title id="title">%s</title>' % title,
        '<desc id="description">%s</desc>' % escape(description(picture)),
        "<style>%s</style>" % STYLE, rectangle("paper", 0, 0, WIDTH, y)] + drawn + ["</svg>", ""])


def main(arguments):
    try:
        if len(arguments) != 1:
            raise Fault("one argument is asked, the table's file; the statement is standard input")
        with open(arguments[0], "rb") as file:
            treaties, bands = read_table(lines_of(file.read(), "table"))
        with open(0, "rb") as file:
            statement = lines_of(file.read(), "statement")
        drawn = svg(read_statement(statement, treaties, bands))
        with open(1, "wb") as file:
            file.write(drawn.encode("ascii"))
    except (Fault, OSError) as fault:
        sys.stderr.write("chart: %s\n" % fault)
        return 2
    return 0


if __name__ == "__main__":
    sys.exit(main(sys.argv[1:]))
