"""How the instructions of a run grow with its events, with the losses of an event and with layers, and their picture.

    growth.py count PROGRAM FOLDER    counts the cases of bench/growth.rs into docs/growth.csv
    growth.py draw                    draws docs/growth.svg from that file

The program is the one that bench/run built; the folder is for what callgrind writes. The drawing leaves memset out,
for the reason that bench/count.py gives; in the file it has a column.
"""

import csv
import math
import pathlib
import sys
from typing import NamedTuple

from count import count, listed

ROOT = pathlib.Path(__file__).resolve().parents[1]
sys.path.insert(0, str(ROOT / "scripts"))

from drawing.elements import group, path, pixels, rectangle, text

COUNTS = ROOT / "docs/growth.csv"
PICTURE = ROOT / "docs/growth.svg"
FIELDS = ["series", "number", "events", "losses", "engine", "memset", "yardstick"]
SIDES = ["engine", "yardstick"]

WIDTH, HEAD = 900, 50
# A panel, and the ends of its axes inside it.
PANEL_WIDTH, PANEL_HEIGHT = 450, 268
LEFT, RIGHT, TOP, BOTTOM = 66, 426, 76, 216

STYLE = """
text { font-family: sans-serif; font-size: 12px; fill: #111; }
.title { font-size: 18px; font-weight: bold; }
.heading { font-size: 14px; font-weight: bold; }
.unit { fill: #555; font-style: italic; }
.right { text-anchor: end; }
.middle { text-anchor: middle; }
.paper { fill: #fff; }
.axis { fill: none; stroke: #111; }
.grid { stroke: #ccc; }
.line { fill: none; stroke-width: 2; }
.engine { stroke: #12304f; }
.yardstick { stroke: #c4701a; stroke-dasharray: 6 3; }
.point { stroke: none; }
.point.engine { fill: #12304f; }
.point.yardstick { fill: #c4701a; }
"""


class Panel(NamedTuple):
    """A series, its heading and what stays the same in it, and the names of its axes."""

    series: str
    heading: str
    note: str
    across: str
    up: str = "million instructions"


PANELS = [
    Panel("events", "Events of one loss", "8 treaties, 8 risk and 8 cat layers", "events in the text"),
    Panel("idle", "Events without losses", "8 treaties, 8 risk and 8 cat layers", "events in the text"),
    Panel("losses", "Losses of an event", "the same 1,664 losses in fewer and fewer events",
          "losses of an event", "instructions a loss"),
    Panel("layers", "Layers that come to their caps", "500 events of 4 losses, 8 treaties", "layers in each tier"),
    Panel("open", "Layers that stay below their caps", "500 events of 4 losses, 8 treaties", "layers in each tier"),
]


def measure(program, folder):
    """Counts every case; the file is written when all are counted."""
    lines = [",".join(FIELDS)]
    for case in listed(program, "growth"):
        series, number, events, losses = case.split()
        engine, memset = count(program, folder, f"{series}-{number}", "engine")
        yardstick, _ = count(program, folder, f"{series}-{number}", "yardstick")
        lines.append(f"{series},{number},{events},{losses},{engine},{memset},{yardstick}")
        print(lines[-1], flush=True)
    COUNTS.write_text("\n".join(lines) + "\n", encoding="ascii")


class Row(NamedTuple):
    """A case as it is drawn: its number, and the instructions of each side in the unit of its panel."""

    number: int
    engine: float
    yardstick: float


def rows_of(panel):
    """The counts of a panel."""
    with open(COUNTS, encoding="ascii", newline="") as file:
        cases = [case for case in csv.DictReader(file) if case["series"] == panel.series]
    for case in cases:
        unit = int(case["losses"]) if panel.series == "losses" else 1e6
        engine = int(case["engine"]) - int(case["memset"])
        yield Row(int(case["number"]), engine / unit, int(case["yardstick"]) / unit)


def round_numbers(most):
    """From 0 by a round step until the most is reached, six at most."""
    steps = (size * 10.0 ** power for power in range(-3, 9) for size in (1, 2, 5))
    step = next(step for step in steps if 5 * step >= most)
    return [step * times for times in range(math.ceil(most / step) + 1)]


def marks_across(numbers):
    """The numbers themselves if they are few."""
    return numbers if len(numbers) < 10 else [mark for mark in round_numbers(max(numbers)) if mark <= max(numbers)]


def labelled(mark):
    return f"{mark:,.0f}" if mark >= 10 else f"{mark:g}"


def axes(panel, marks, heights, x, y):
    """Both axes with their marks; x and y give the place of a number."""
    drawn = [text(LEFT - 50, TOP - 14, panel.up, "unit"), text(RIGHT, BOTTOM + 37, panel.across, "unit right")]
    for mark in heights:
        drawn += [path("grid", [(LEFT, y(mark)), (RIGHT, y(mark))])]
        drawn += [text(LEFT - 8, y(mark) + 4, labelled(mark), "right")]
    drawn += [path("axis", [(LEFT, TOP), (LEFT, BOTTOM), (RIGHT, BOTTOM)])]
    for mark in marks:
        drawn += [path("axis", [(x(mark), BOTTOM), (x(mark), BOTTOM + 5)])]
        drawn += [text(x(mark), BOTTOM + 19, labelled(mark), "middle")]
    return drawn


def line(side, points):
    """The line of a side, and a dot for each number counted."""
    dots = [f'<circle class="point {side}" cx="{pixels(x)}" cy="{pixels(y)}" r="2.5"/>' for x, y in points]
    return [path(f"line {side}", points)] + dots


def drawn_panel(panel):
    rows = list(rows_of(panel))
    numbers = [row.number for row in rows]
    heights = round_numbers(max(max(row.engine, row.yardstick) for row in rows))
    # Each number of losses is twice the one before.
    scale = math.log2 if panel.series == "losses" else float
    least, most = scale(numbers[0]), scale(numbers[-1])

    def x(number):
        return LEFT + (RIGHT - LEFT) * (scale(number) - least) / (most - least)

    def y(height):
        return BOTTOM - (BOTTOM - TOP) * height / heights[-1]

    drawn = [text(LEFT - 50, 20, panel.heading, "heading"), text(LEFT - 50, 37, panel.note, "note")]
    drawn += axes(panel, marks_across(numbers), heights, x, y)
    for side in SIDES:
        drawn += line(side, [(x(row.number), y(getattr(row, side))) for row in rows])
    return drawn


def legend():
    """What the lines are, in the place of a sixth panel."""
    notes = ["Instructions of one run, counted by callgrind inside", "cession_run and inside the yardstick's run.",
             "Those of memset are left out. Dots are cases counted."]
    drawn = [text(LEFT + 60, 74 + 24 * row, side, "name") for row, side in enumerate(SIDES)]
    for row, side in enumerate(SIDES):
        drawn += line(side, [(LEFT - 50 + 50 * place, 70 + 24 * row) for place in range(3)])
    return drawn + [text(LEFT - 50, 130 + 18 * row, note, "note") for row, note in enumerate(notes)]


def draw():
    title = "How the cost of a run grows"
    height = HEAD + PANEL_HEIGHT * math.ceil((len(PANELS) + 1) / 2)
    head = f'<svg xmlns="http://www.w3.org/2000/svg" width="{WIDTH}" height="{height}" ' \
           f'viewBox="0 0 {WIDTH} {height}" role="img" aria-labelledby="title">'
    lines = [head, f'<title id="title">{title}</title>', f"<style>{STYLE}</style>"]
    lines += [rectangle("paper", 0, 0, WIDTH, height), text(LEFT - 50, 34, title, "title")]
    drawn = [(panel.series, drawn_panel(panel)) for panel in PANELS] + [("legend", legend())]
    for place, (name, elements) in enumerate(drawn):
        x, y = PANEL_WIDTH * (place % 2), HEAD + PANEL_HEIGHT * (place // 2)
        lines += group(name, elements, f' transform="translate({x} {y})"')
    PICTURE.write_text("\n".join(lines + ["</svg>", ""]), encoding="ascii")


def main(arguments):
    if arguments[:1] == ["count"] and len(arguments) == 3:
        measure(*arguments[1:])
    elif arguments == ["draw"]:
        draw()
    else:
        sys.exit("growth.py: call as growth.py count PROGRAM FOLDER or growth.py draw")


if __name__ == "__main__":
    main(sys.argv[1:])
