"""What calls leave of what they are lent, through the Python module. Called as `lent.py FOLDER`, it does and prints
what lent.c does. Buffers and standings go through the public calls; programmes that no `Programme` can hold go to the
functions below them.
"""

import ctypes
import dataclasses
import pathlib
import sys

import cession
from cession import raw

MOST = 70_000
AROUND = 64

FOLDER = pathlib.Path(sys.argv[1])
TABLE, EVENTS, STATEMENT = ((FOLDER / f"{name}.txt").read_bytes() for name in ("programme", "events", "statement"))
PROGRAMME = cession.read(TABLE)
BEGUN = cession.Standing(cat=(11, 12, 13, 14, 15, 0, 0, 0), day=90)


def memory():
    """Bytes of which the middle part is lent."""
    return bytearray((place * 7 + 3) % 256 for place in range(AROUND + MOST + AROUND))


def answer(call, *arguments):
    """Refusal and number of a public call."""
    try:
        return 0, call(*arguments)
    except cession.Refused as refused:
        return refused.number, refused.second


def left(call, written, length, standing=None):
    """The answer of a call that is lent so many bytes of the memory and the middle one of three standings, and what it
    left of them.
    """
    buffer, expected = memory(), memory()
    standings = (raw.Standing * 3)(*(raw.Standing(day=7),) * 3)
    if standing:
        standings[1] = standing
    before = bytes(standings)
    refusal, number = call(memoryview(buffer)[AROUND : AROUND + length], standings[1])
    if not refusal:
        expected[AROUND : AROUND + len(written)] = written
        standings[1] = standing or standings[1]
    same = buffer == expected and bytes(standings) == before
    return refusal, number, ("as lent" if refusal else "written") if same else "changed"


def show(call, name, refusal, number, state):
    print(f"{call}, {name}: {refusal} {number}, {state}")


def try_write(name, length):
    show("write", name, *left(lambda buffer, _: answer(cession.write_into, PROGRAMME, buffer), TABLE, length))


def try_run(name, standing, events, length=MOST, programme=PROGRAMME):
    def call(buffer, lent):
        return answer(cession.run_into, programme, lent, events, buffer)

    show("run", name, *left(call, STATEMENT, length, standing.to_raw()))


def try_broken(name, programme):
    """A programme that is lent as its numbers."""

    def room(buffer):
        return (ctypes.c_char * len(buffer)).from_buffer(buffer), len(buffer)

    def write(buffer, _):
        given = raw.library().cession_write(programme, *room(buffer))
        return given.refusal, given.number

    def run(buffer, lent):
        given = raw.library().cession_run(programme, lent, EVENTS, len(EVENTS), *room(buffer))
        return given.refusal, given.number

    show("write", name, *left(write, TABLE, MOST))
    opening = raw.library().cession_open(programme)
    state = "not all 0" if any(bytes(opening.standing)) else "all 0"
    show("open", name, opening.refusal, opening.number, state)
    show("run", name, *left(run, STATEMENT, MOST, BEGUN.to_raw()))


def try_programmes():
    """Each programme has one number that no table text reads to."""
    changes = [
        ("treaty in an unused place", lambda programme: programme.treaties.places[3], "limit", 1),
        ("risk layer in an unused place", lambda programme: programme.risk.places[0], "placed", 1),
        ("cat layer in an unused place", lambda programme: programme.cat.places[7], "attachment", 1),
        ("rate in an unused place", lambda programme: programme.cat.places[7].rates, 19, 1),
        ("rate past the last reinstatement", lambda programme: programme.cat.places[0].rates, 2, 1),
        ("rate over 20,000", lambda programme: programme.cat.places[0].rates, 1, 20001),
        ("time 2", lambda programme: programme.cat.places[0], "time", 2),
        ("time in an unused place", lambda programme: programme.risk.places[0], "time", 1),
        ("count of treaties 9", lambda programme: programme.treaties, "count", 9),
        ("count of risk layers 9", lambda programme: programme.risk, "count", 9),
        ("count of cat layers 9", lambda programme: programme.cat, "count", 9),
        ("treaty of kind 3", lambda programme: programme.treaties.places[1], "kind", 3),
        ("surplus with a share ceded", lambda programme: programme.treaties.places[0], "cede", 1),
    ]
    for name, part, place, number in changes:
        programme = PROGRAMME.to_raw()
        if isinstance(place, str):
            setattr(part(programme), place, number)
        else:
            part(programme)[place] = number
        try_broken(name, programme)


def try_standings():
    """The cap of cat layer 1 is 100000000 + 50000000 * 3. Of the 13 that cat layer 3 has spent 12 are recovered, at
    22500000 / 150000000 each: with (time) its timed premium is at most 1.8, which is 2.
    """
    cat = BEGUN.cat
    try_run("cat layer 1 spent above its cap", cession.Standing(cat=(250000001,) + cat[1:], day=90), EVENTS)
    try_run("missing risk layer spent", cession.Standing(risk=(1,) + (0,) * 7, cat=cat, day=90), EVENTS)
    try_run("missing cat layer spent", cession.Standing(cat=cat[:5] + (1, 0, 0), day=90), EVENTS)
    try_run("day 367 in the standing", cession.Standing(cat=cat, day=367), EVENTS)

    def begun(row, place, amount):
        return dataclasses.replace(BEGUN, **{row: (0,) * place + (amount,) + (0,) * (7 - place)})

    try_run("missing risk layer with a timed premium", begun("risk_timed", 0, 1), EVENTS)
    try_run("missing cat layer with a timed premium", begun("cat_timed", 7, 1), EVENTS)
    try_run("layer without (time) with a timed premium", begun("cat_timed", 2, 2), EVENTS)
    layers = PROGRAMME.cat
    timed = dataclasses.replace(PROGRAMME, cat=layers[:2] + (dataclasses.replace(layers[2], time=1),) + layers[3:])
    try_run("the same with (time) and no buffer", begun("cat_timed", 2, 2), EVENTS, 0, timed)
    try_run("timed premium above the amount premium", begun("cat_timed", 2, 3), EVENTS, 0, timed)


def try_events():
    """A line that is accepted under the standing, then a line that is not."""
    first = b"(event 91 (loss 0 9 8))\n"
    try_run("events over 65,536 bytes", BEGUN, bytes(cession.EVENTS_BYTES + 1))
    try_run("not an event form", BEGUN, first + b"(event 92\n")
    try_run("day 367", BEGUN, first + b"(event 367)\n")
    try_run("65 losses", BEGUN, first + b"(event 92" + b" (loss 0 7 6)" * 65 + b")\n")
    try_run("day below the standing's", cession.Standing(cat=BEGUN.cat, day=92), first + b"(event 92)\n")
    try_run("treaty that the table lacks", BEGUN, first + b"(event 92 (loss 4 7 6))\n")


def share_of(day):
    """A scale by steps: the whole premium up to day 183, 66.67% of it on day 184, a third from day 185 on."""
    return 10000 if day < 184 else 6667 if day == 184 else 3333


STEPS = tuple(share_of(day) for day in range(1, 367))


def try_scale(name, count, line=0, words=b""):
    """Reads the first so many lines of the scale, with other words in place of one of them."""
    lines = [words if day == line else b"(day %d %d)\n" % (day, share_of(day)) for day in range(1, count + 1)]
    text = b"".join(lines)
    # The module gives no shares with a refusal: the call below it does.
    shares = tuple(raw.library().cession_read_scale(text, len(text)).scale.shares)
    state = "all 0" if shares == (0,) * 366 else "the shares" if shares == STEPS else "other shares"

    def call():
        assert cession.read_scale(text).shares == shares, "the module's shares"
        return 0

    show("read scale", name, *answer(call), state)


def try_scales():
    try_scale("by steps", 366)
    try_scale("no lines", 0)
    try_scale("365 lines", 365)
    try_scale("367 lines", 367)
    try_scale("no last line feed", 366, 366, b"(day 366 3333)")
    try_scale("not the form", 366, 7, b"(day 7 10000 )\n")
    try_scale("another day", 366, 185, b"(day 184 3333)\n")
    try_scale("share over 10,000", 366, 184, b"(day 184 10001)\n")
    try_scale("share over 10,000 in 10 lines", 10, 3, b"(day 3 10001)\n")
    try_scale("share above the day before", 366, 185, b"(day 185 6668)\n")


# A layer that charges 182,500 for half of its limit, by time; a loss of 500,000 on day 184.
TIMED = cession.read(b"(cat (band 0 1000000) (deduct 0) (back 1 365000 10000) (placed 10000) (time))\n")
UNTIMED = cession.read(b"(cat (band 0 1000000) (deduct 0) (back 1 365000 10000) (placed 10000))\n")
TWICE_TIMED = cession.Programme(cat=[dataclasses.replace(TIMED.cat[0], time=2)])
LOSS = b"(event 184 (loss 0 500000 500000))\n"
LONG = bytes(cession.EVENTS_BYTES + 1)


def timed_statement(premium):
    """The statement of that loss, for which so much is charged."""
    return (
        b"(event 184 (gross 500000) (ceded 0) (risk 0) (cat 500000) (net 0) (premium %d))\n"
        b"(layer cat 1 (deductible 0) (cover 1500000) (recovered 500000) (premium %d))\n"
        b"(total (gross 500000) (ceded 0) (risk 0) (cat 500000) (net 0) (premium %d))\n" % ((premium,) * 3)
    )


def try_scaled(name, shares, length=MOST, premium=121673, programme=TIMED, standing=cession.Standing(), events=LOSS):
    """A run that is lent shares. An accepted one charges so much."""
    after = []

    def call(buffer, lent):
        refusal, number = answer(cession.run_scaled_into, programme, lent, cession.Scale(shares), events, buffer)
        if not refusal:
            after.append((lent.cat[0], lent.day, lent.cat_timed[0]))
        return refusal, number

    show("run scaled", name, *left(call, timed_statement(premium), length, standing.to_raw()))
    for spent, day, timed in after:
        print(f"run scaled, {name}, standing: {spent} {day} {timed}")


def try_accepted():
    """182,500 x 6,667 / 10,000 is 121,672.75; the built-in share of day 184 is 4,986, and 182,500 x 4,986 / 10,000 is
    90,994.5.
    """
    try_scaled("by steps", STEPS)
    try_scaled("buffer just long enough", STEPS, 245)
    try_scaled("buffer one byte short", STEPS, 244)
    try_scaled("the built-in shares", [10000 * (366 - day) // 365 for day in range(1, 367)], premium=90995)
    try_scaled("without (time)", STEPS, premium=182500, programme=UNTIMED)


def try_no_scales():
    """Each scale is one that no text reads to."""
    try_scaled("no shares", ())
    try_scaled("365 shares", STEPS[:365])
    try_scaled("367 shares", STEPS + (0,))
    try_scaled("first share over 10,000", (10001,) + STEPS[1:])
    try_scaled("share of day 2 above the one before", (9999,) + STEPS[1:])
    try_scaled("share of day 366 above the one before", STEPS[:365] + (3334,))
    try_scaled("the same without (time)", STEPS[:365] + (3334,), programme=UNTIMED)


def try_order():
    """365 shares with another fault beside them: 6 and 8 come before 28, 9 and the faults of lines after it."""
    short, late = STEPS[:365], cession.Standing(day=367)
    try_scaled("events over 65,536 bytes", STEPS, events=LONG)
    try_scaled("365 shares, events over 65,536 bytes", short, events=LONG)
    try_scaled("365 shares, day 367 in the standing", short, standing=late, events=LONG)
    try_scaled("365 shares, time 2", short, programme=TWICE_TIMED, standing=late, events=LONG)
    try_scaled("365 shares, day 367", short, events=b"(event 367)\n")


def buffers(text):
    """The lengths of buffer that a text is tried with."""
    return {
        "buffer of length 0": 0,
        "buffer one byte short": len(text) - 1,
        "buffer just long enough": len(text),
        "buffer longer": MOST,
    }.items()


for case, size in buffers(TABLE):
    try_write(case, size)
try_programmes()
try_standings()
try_events()
try_run("no events and no buffer", cession.Standing(), b"", 0)
for case, size in buffers(STATEMENT):
    try_run(case, cession.Standing(), EVENTS, size)
try_scales()
try_accepted()
try_no_scales()
try_order()
