"""The panels of rows: treaties with what each ceded, and events with what each took."""

from drawing.elements import LINE, MARGIN, WIDTH, Panel, bar, group, headed, path, rectangle, text
from drawing.texts import AMOUNTS, Event
from drawing.wording import cents

SHOWN = 12  # events that are shown one by one


def largest(events):
    """The largest events by gross with a letter each, in the order of the statement."""
    order = sorted(range(len(events)), key=lambda place: -events[place].gross)[:SHOWN]
    return [(chr(ord("A") + letter), events[place]) for letter, place in enumerate(sorted(order))]


def treaties_drawn(treaties):
    drawn = headed("Treaties", ["Ceded is this run's. Bars: linear; the largest fills the width."])
    most = max([treaty.ceded for treaty in treaties] + [1])
    for place, treaty in enumerate(treaties):
        row = 40 + 20 * place
        drawn += [text(MARGIN, row, "treaty %d" % treaty.number, "strong"), text(MARGIN + 70, row, treaty.terms)]
        drawn.append(text(826, row, "ceded " + cents(treaty.ceded), "small right"))
        drawn += bar([("ceded", treaty.ceded)], 840, row - 8, WIDTH - MARGIN - 840, most)
    return Panel("treaties", drawn, 64 + 20 * len(treaties))


def row_drawn(y, name, day, amounts):
    drawn = [text(MARGIN, y, name, "strong"), text(88, y, day, "small right")]
    return drawn + [text(90 + 143 * place, y, words, "small right") for place, words in enumerate(amounts, 1)]


def amounts_of(event, subject=""):
    return [cents(event.gross), cents(event.ceded), cents(event.risk), subject,
            cents(event.cat), cents(event.net), cents(event.premium)]


def event_drawn(y, name, event, most):
    parts = [(kind, getattr(event, kind)) for kind in ("ceded", "risk", "cat", "net")]
    row = row_drawn(y, name, str(event.day), amounts_of(event, cents(event.subject)))
    return group("event-" + name, row + bar(parts, MARGIN, y + 5, WIDTH - 2 * MARGIN, most))


def added(events):
    return Event(0, *(sum(getattr(event, name) for event in events) for name in AMOUNTS))


def events_note(marks, others):
    if not marks:
        return "The events text is empty."
    if not others:
        return "Bars: linear; the largest gross fills the width. Their parts:"
    return "The %d largest of %s by gross; the others are added up. Bars: linear; the largest gross fills the " \
           "width. Their parts:" % (len(marks), cents(len(marks) + len(others)))


def events_drawn(events, marks, total):
    others = [event for event in events if all(event is not shown for _, shown in marks)]
    drawn = headed("Events of this run", [events_note(marks, others)]) + legend(MARGIN, 2 * LINE + 4)
    drawn += row_drawn(66, "event", "day", ["gross", "ceded", "risk", "cat subject", "cat", "net", "premium"])
    most = max([event.gross for event in events] + [1])
    for place, (name, event) in enumerate(marks):
        drawn += event_drawn(85 + 33 * place, name, event, most)
    y = 74 + 33 * len(marks)
    drawn.append(path("axis", [(MARGIN, y), (WIDTH - MARGIN, y)]))
    if others:
        y += 18
        drawn += row_drawn(y, "others", "", amounts_of(added(others)))
    drawn += row_drawn(y + 18, "total", "", amounts_of(total))
    return Panel("events", drawn, y + 40)


def legend(x, y):
    drawn = []
    for kind, words in (("ceded", "ceded to treaties"), ("risk", "recovered from risk layers"),
                        ("cat", "recovered from cat layers"), ("net", "net")):
        drawn += [rectangle("bar " + kind, x, y - 9, 14, 10), text(x + 20, y, words)]
        x += 40 + 7 * len(words)
    return drawn
