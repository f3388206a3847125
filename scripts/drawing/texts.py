"""Reads a table and a statement. A form is written as documents 01 and 02 print it: its capitals are numbers."""

import re
from typing import List, NamedTuple, Tuple

from drawing.wording import cents, counted, share

TIERS = ("risk", "cat")
AMOUNTS = ("gross", "ceded", "risk", "cat", "net", "premium")


class Fault(Exception):
    """Why no picture can be drawn, in one line."""


class Treaty(NamedTuple):
    number: int
    terms: str
    ceded: int


class Band(NamedTuple):
    """A layer's line of the table."""

    tier: str
    attachment: int
    limit: int
    deductible: int
    premium: int
    rates: Tuple[int, ...]  # one for each reinstatement
    placed: int
    is_timed: bool  # whether premium is by amount and time

    @property
    def end(self):
        return self.attachment + self.limit


class Layer(NamedTuple):
    """A band at its place in its tier, with the year's figures."""

    band: Band
    place: int
    deductible: int
    cover: int
    recovered: int
    premium: int


class Event(NamedTuple):
    day: int
    gross: int
    ceded: int
    risk: int
    cat: int
    net: int
    premium: int

    @property
    def subject(self):
        """What the catastrophe layers look at: all that treaties and risk layers leave."""
        return self.net + self.cat


class Picture(NamedTuple):
    treaties: List[Treaty]
    layers: List[Layer]
    events: List[Event]
    total: Event


NUMBER = "(?:0|[1-9][0-9]{0,19})"


def expression(template):
    return "".join("(%s)" % NUMBER if letter.isupper() else re.escape(letter) for letter in template)


def form(template):
    return re.compile(expression(template))


def layer_form(tier):
    """A layer's form, with its rates, however many, in one part, and (time), if it is there, in another."""
    begin, placed, time = "(%s (band A L) (deduct D) (back K P" % tier, ") (placed S)", " (time)"
    parts = expression(begin), NUMBER, expression(placed), expression(time), expression(")")
    return re.compile("%s((?: %s)*)%s(%s)?%s" % parts)


QUOTA = form("(quota T (cede C) (capacity A) (event L))")
SURPLUS = form("(surplus T (retain R) (lines N) (event L))")
BANDS = {tier: layer_form(tier) for tier in TIERS}
FIGURES = " ".join("(%s %s)" % (name, name[0].upper()) for name in AMOUNTS)
EVENT = form("(event D %s)" % FIGURES)
TOTAL = form("(total %s)" % FIGURES)
CEDED = form("(treaty T (ceded C))")
YEAR = {tier: form("(layer %s N (deductible D) (cover C) (recovered R) (premium P))" % tier) for tier in TIERS}
REFUSED = form("(refused N W)")


def numbers(pattern, line):
    """The numbers of a line of this form, or None."""
    match = pattern.fullmatch(line)
    return match and [int(digits) for digits in match.groups()]


def lines_of(data, name):
    try:
        text = data.decode("ascii")
    except UnicodeDecodeError:
        raise Fault("the %s is not ASCII text" % name) from None
    if text and not text.endswith("\n"):
        raise Fault("the last line of the %s has no line feed" % name)
    return text.split("\n")[:-1]


def limited(name, amount):
    return "%s %s" % (name, cents(amount)) if amount else "no " + name


def treaty_terms(line):
    """A treaty's number and its terms in words, or None."""
    quota, surplus = numbers(QUOTA, line), numbers(SURPLUS, line)
    if quota:
        number, cede, capacity, event = quota
        words = "quota share, %s ceded, %s, %s" % (
            share(cede), limited("capacity", capacity), limited("event limit", event))
    elif surplus:
        number, retention, count, event = surplus
        words = "surplus, retention %s, %s, %s" % (
            cents(retention), counted(count, "line"), limited("event limit", event))
    else:
        return None
    return number, words


def band_of(line):
    """The band of a line that has as many rates as reinstatements."""
    for tier, pattern in BANDS.items():
        match = pattern.fullmatch(line)
        if match:
            *terms, listed, placed, time = match.groups()
            attachment, limit, deductible, reinstatements, premium = map(int, terms)
            rates = tuple(map(int, listed.split()))
            if len(rates) == reinstatements:
                return Band(tier, attachment, limit, deductible, premium, rates, int(placed), time is not None)
    return None


def read_table(lines):
    """The treaties' numbers and words, and the bands, risk before cat and rising as a table has them."""
    treaties, bands = [], []
    for place, line in enumerate(lines, 1):
        treaty, band = treaty_terms(line), band_of(line)
        if treaty and not bands:
            treaties.append(treaty)
        elif band and follows(band, bands[-1:]):
            bands.append(band)
        else:
            raise Fault("line %d of the table is not one that a table can have there" % place)
    return treaties, bands


def follows(band, before):
    in_range = band.limit > 0 and band.placed <= 10000
    return in_range and all(
        (last.tier == band.tier and last.end <= band.attachment) or (last.tier, band.tier) == ("risk", "cat")
        for last in before)


class Lines:
    """A statement's lines, taken one by one."""

    def __init__(self, lines):
        self.lines = lines
        self.taken = 0

    def optional(self, pattern):
        found = numbers(pattern, self.lines[self.taken]) if self.taken < len(self.lines) else None
        self.taken += found is not None
        return found

    def expect(self, pattern, what):
        found = self.optional(pattern)
        if found is None:
            raise Fault("line %d of the statement is not %s, as the table asks" % (self.taken + 1, what))
        return found

    def end(self):
        if self.taken < len(self.lines):
            raise Fault("the statement goes on after its total line")


def read_statement(lines, treaties, bands):
    if lines and numbers(REFUSED, lines[0]):
        raise Fault("the statement is a refusal: %s" % lines[0])
    rest = Lines(lines)
    events = [Event(*found) for found in iter(lambda: rest.optional(EVENT), None)]
    ceded = [treaty_in(rest, *treaty) for treaty in treaties]
    layers = []
    for band in bands:
        place = 1 + sum(layer.band.tier == band.tier for layer in layers)
        layers.append(layer_in(rest, band, place))
    total = Event(0, *rest.expect(TOTAL, "the total line"))
    rest.end()
    picture = Picture(ceded, layers, events, total)
    check_sums(picture)
    return picture


def treaty_in(rest, number, terms):
    found, ceded = rest.expect(CEDED, "that of treaty %d" % number)
    if found != number:
        raise Fault("line %d of the statement is not that of treaty %d" % (rest.taken, number))
    return Treaty(number, terms, ceded)


def layer_in(rest, band, place):
    """A layer whose figures can be those of its band: what it has recovered is the placed share of the cover gone, to
    the nearest cent."""
    name = "%s %d" % (band.tier, place)
    found, *figures = rest.expect(YEAR[band.tier], "that of layer " + name)
    layer = Layer(band, place, *figures)
    used = band.limit * (len(band.rates) + 1) - layer.cover
    fits = layer.deductible <= band.deductible and used >= 0 and (used == 0 or layer.deductible == 0)
    if found != place or not fits or layer.recovered != (used * band.placed + 5000) // 10000:
        raise Fault("the statement does not fit the table at layer " + name)
    return layer


def check_sums(picture):
    for event in picture.events + [picture.total]:
        if event.gross != event.ceded + event.risk + event.subject:
            raise Fault("an event or the total of the statement does not add up")
    if any(getattr(picture.total, name) != sum(getattr(event, name) for event in picture.events) for name in AMOUNTS):
        raise Fault("the events of the statement do not add up to its total")
    if picture.total.ceded != sum(treaty.ceded for treaty in picture.treaties):
        raise Fault("the treaties of the statement do not add up to its total")
