"""The panel of a tier: a tower of its layers over a money axis, and what events brought to it."""

from drawing.axis import CUT, axis_of, ticks_of
from drawing.elements import LINE, MARGIN, Panel, group, headed, path, rectangle, text
from drawing.wording import cents, counted, share

HEADINGS = {"risk": "Risk layers", "cat": "Catastrophe layers"}
AXIS = 146  # the x of the money axis: its labels have room for 10^15
RIGHT = 484  # the x of the right side of the tower
COLUMN = 14  # the width that an event takes beside it
WIDE = 9  # the width of its column
BLOCK = 4 * LINE + 8  # the height of a layer's label


def tower(tier, layers, marks):
    """The layers of a tier over their axis, with their labels and, beside them, what events reached."""
    bands = [layer.band for layer in layers]
    notes = tower_notes(marks)
    top = max([bands[-1].end] + [event.subject for _, event in marks])
    axis = axis_of(bands, top, 40 + LINE * len(notes), BLOCK * len(bands))
    left = AXIS + 10 + COLUMN * len(marks)
    drawn = headed(HEADINGS[tier], [axis_note(axis)] + notes) + axis_drawn(axis)
    drawn += [element for layer in layers for element in layer_drawn(axis, layer, left)]
    drawn += [element for place, mark in enumerate(marks) for element in mark_drawn(axis, place, *mark)]
    drawn += cuts_drawn(axis)
    drawn += [name_drawn(axis, place, *mark) for place, mark in enumerate(marks)]  # over the zigzags
    drawn += labels_drawn(axis, layers)
    return Panel(tier, drawn, axis.bottom + 44)


def tower_notes(marks):
    notes = ["Full width: 100% of a layer. Shaded: its placed share. Figures of layers are the year's."]
    if marks:
        notes.append("Dark columns and dots: how high the subject of these layers was in each event shown below; "
                     "it is what treaties and risk layers left.")
    return notes


def axis_note(axis):
    count = len(axis.stretches)
    if count == 1:
        return "Height: cents, linear from 0."
    return "Height: cents, in %d stretches parted by zigzags; each is linear and has a scale of its own." % count


def axis_drawn(axis):
    drawn = []
    for stretch in axis.stretches:
        drawn.append(path("axis", [(AXIS, stretch.bottom), (AXIS, stretch.top)]))
        for amount in ticks_of(stretch):
            y = stretch.y(amount)
            drawn += [path("grid", [(AXIS - 5, y), (RIGHT, y)]), text(AXIS - 8, y + 4, cents(amount), "small right")]
    return drawn


def cuts_drawn(axis):
    drawn = []
    for stretch in axis.stretches[:-1]:
        middle = stretch.top - CUT / 2
        teeth = [(x, middle + (3 if x // 8 % 2 else -3)) for x in range(AXIS - 4, RIGHT + 12, 8)]
        drawn += [path("gap", teeth), path("cut", teeth)]
    return drawn


def column_top(axis, place, event):
    """The upper left corner of an event's column."""
    return AXIS + 6 + COLUMN * place, axis.stretch(event.subject).y(event.subject)


def mark_drawn(axis, place, name, event):
    x, y = column_top(axis, place, event)
    return group("subject-" + name, [
        path("reach", [(x, y), (RIGHT, y)]),
        rectangle("subject", x, y, WIDE, axis.bottom - y)])


def name_drawn(axis, place, name, event):
    x, y = column_top(axis, place, event)
    return text(x + WIDE / 2, y - 4, name, "small name middle")


def layer_drawn(axis, layer, left):
    stretch = axis.stretch(layer.band.end)
    top = stretch.y(layer.band.end)
    height = stretch.y(layer.band.attachment) - top
    return group("%s-%d" % (layer.band.tier, layer.place), [
        rectangle("band", left, top, RIGHT - left, height),
        rectangle("placed", left, top, (RIGHT - left) * layer.band.placed / 10000, height)])


def rates_in_words(rates):
    """One rate where all are equal, two as they are used, and of more the lowest and the highest."""
    if len(set(rates)) == 1:
        return share(rates[0])
    if len(rates) == 2:
        return "%s and %s" % tuple(map(share, rates))
    return "%s to %s" % (share(min(rates)), share(max(rates)))


def layer_label(layer):
    band = layer.band
    back = counted(len(band.rates), "reinstatement")
    if band.rates:
        back += " at %s of %s" % (rates_in_words(band.rates), cents(band.premium))
    charged = "premium by amount and time" if band.is_timed else "reinstatement premium"
    return [
        "%s %d: %s xs %s, %s placed" % (
            band.tier, layer.place, cents(band.limit), cents(band.attachment), share(band.placed)),
        "yearly deductible %s, left %s" % (cents(band.deductible), cents(layer.deductible)),
        "%s; cover left %s" % (back, cents(layer.cover)),
        "recovered %s; %s %s" % (cents(layer.recovered), charged, cents(layer.premium))]


def spread(centres, low, high):
    """Upper ends of blocks of one height, as near to their centres as they can be without meeting."""
    tops = []
    for centre in centres:
        tops.append(max([centre - BLOCK / 2, low] + [top + BLOCK for top in tops[-1:]]))
    for place in reversed(range(len(tops))):
        tops[place] = min([tops[place], high - BLOCK] + [top - BLOCK for top in tops[place + 1:place + 2]])
    return tops


def labels_drawn(axis, layers):
    """Labels from the highest layer down, each joined to its band."""
    drawn, downwards = [], layers[::-1]
    stretches = [axis.stretch(layer.band.end) for layer in downwards]
    centres = [(stretch.y(layer.band.attachment) + stretch.y(layer.band.end)) / 2
               for stretch, layer in zip(stretches, downwards)]
    for layer, centre, top in zip(downwards, centres, spread(centres, axis.top, axis.bottom)):
        middle = top + BLOCK / 2
        leader = [(RIGHT, centre), (RIGHT + 6, centre), (RIGHT + 22, middle), (RIGHT + 28, middle)]
        drawn.append(path("leader", leader))
        for line, words in enumerate(layer_label(layer), 1):
            drawn.append(text(RIGHT + 32, top + LINE * line, words, "strong" if line == 1 else "small"))
    return drawn
