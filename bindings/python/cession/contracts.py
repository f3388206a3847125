"""The contracts of a table, a time scale and the year so far, as values that do not change.

Amounts are whole cents; shares and rates are basis points, 10,000 to the whole. Any numbers of 64 bits may be put in:
the calls refuse what no table states.
"""

import ctypes
import functools
from dataclasses import dataclass
from typing import Tuple

from . import raw

QUOTA_SHARE = 1
SURPLUS = 2


def _word(name: str, value: int) -> int:
    """The value, if 64 bits hold it: a larger one would be cut off on its way into the library."""
    if not isinstance(value, int) or isinstance(value, bool):
        raise TypeError(f"{name} is a {type(value).__name__} and must be an int")
    if not 0 <= value < 2**64:
        raise ValueError(f"{name} is {value} and must be from 0 to 2**64 - 1")
    return value


def _numbers(name: str, values: tuple, count: int) -> tuple:
    """So many numbers, each in a place of its own."""
    if len(values) != count:
        raise ValueError(f"{name} has {len(values)} places and must have {count}")
    return tuple(_word(f"{name}[{place}]", value) for place, value in enumerate(values))


def _filled(structure: type, name: str, record: object):
    """The structure with what the record has in each of its fields, a number or a row of them."""
    filled = structure()
    for field, kind in structure._fields_:
        value, named = getattr(record, field), f"{name}.{field}"
        row = getattr(kind, "_length_", None)
        setattr(filled, field, _word(named, value) if row is None else kind(*_numbers(named, value, row)))
    return filled


def _places(structure: type, kind: type, name: str, records: tuple):
    """The structure of places with the records, all of this kind, in the first of them."""
    if len(records) > raw.PLACES:
        raise ValueError(f"{name} has {len(records)} places and may have {raw.PLACES}")
    for place, record in enumerate(records):
        if not isinstance(record, kind):
            raise TypeError(f"{name}[{place}] is a {type(record).__name__} and must be a {kind.__name__}")
    numbers = structure().places._type_
    filled = (_filled(numbers, f"{name}[{place}]", record) for place, record in enumerate(records))
    return structure((numbers * raw.PLACES)(*filled), len(records))


def _value(number):
    """What a structure has in a field: a number, or a row of them."""
    return number if isinstance(number, int) else tuple(number)


def _taken(kind: type, places) -> tuple:
    """The records in the places in use."""
    used = places.places[: places.count]
    return tuple(kind(*(_value(getattr(place, field)) for field, _ in place._fields_)) for place in used)


@dataclass(frozen=True)
class Treaty:
    """A proportional treaty: `QUOTA_SHARE` with `cede` and `capacity`, or `SURPLUS` with `retention` and `lines`; the
    terms of the other kind stay 0. `number` is 1 to 8, `limit` the event limit, the most ceded to it of one event.
    Capacity 0 and limit 0 mean none.

    >>> Treaty(QUOTA_SHARE, number=1, cede=4000, capacity=20000)
    Treaty(kind=1, number=1, cede=4000, capacity=20000, retention=0, lines=0, limit=0)
    """

    kind: int
    number: int
    cede: int = 0
    capacity: int = 0
    retention: int = 0
    lines: int = 0
    limit: int = 0


@dataclass(frozen=True)
class Terms:
    """The terms of an excess layer. The deductible is yearly; reinstatements are a number, and each has its rate of
    the premium, which is that for 100% of the layer. Rates stand in 20 places, in the order in which the
    reinstatements are used; those that are left out are 0. `time` is 0 where premium is by amount alone and 1 where it
    is by amount and time, `(time)` in the table: each loss's amount premium times its day's time share over 10,000, to
    the nearest cent. The share is that of the `Scale` lent to the run, or without one 10,000 x (366 - day) / 365
    rounded down.

    >>> Terms(attachment=50, limit=100, placed=9000).deductible
    0
    >>> Terms(attachment=50, limit=100, reinstatements=2, premium=1000, rates=(0, 10000), time=1).rates[:3]
    (0, 10000, 0)
    """

    attachment: int
    limit: int
    deductible: int = 0
    reinstatements: int = 0
    premium: int = 0
    placed: int = 0
    rates: Tuple[int, ...] = ()
    time: int = 0

    def __post_init__(self):
        rates = tuple(self.rates)
        object.__setattr__(self, "rates", rates + (0,) * (raw.RATES - len(rates)))


@dataclass(frozen=True)
class Programme:
    """The contracts of a table: at most 8 treaties, 8 risk layers and 8 cat layers, in the table's order.

    >>> programme = Programme(cat=[Terms(attachment=50, limit=100, placed=9000)])
    >>> programme.cat[0].limit, programme.risk
    (100, ())
    """

    treaties: Tuple[Treaty, ...] = ()
    risk: Tuple[Terms, ...] = ()
    cat: Tuple[Terms, ...] = ()

    def __post_init__(self):
        for name in ("treaties", "risk", "cat"):
            object.__setattr__(self, name, tuple(getattr(self, name)))

    def to_raw(self) -> raw.Programme:
        """The programme as the library takes it. Numbers that 64 bits do not hold, and a ninth place, are an error.

        >>> Programme(risk=[Terms(attachment=2**64, limit=1)]).to_raw()
        Traceback (most recent call last):
        ValueError: risk[0].attachment is 18446744073709551616 and must be from 0 to 2**64 - 1
        """
        return raw.Programme(
            _places(raw.Treaties, Treaty, "treaties", self.treaties),
            _places(raw.Layers, Terms, "risk", self.risk),
            _places(raw.Layers, Terms, "cat", self.cat),
        )

    # What the calls lend; it is made once, since neither the programme nor a call changes it.
    _lent = functools.cached_property(to_raw)

    @classmethod
    def from_raw(cls, numbers: raw.Programme) -> "Programme":
        """The programme with these numbers. A count above 8 and a number in an unused place are an error: the
        programme would not have them.

        >>> Programme.from_raw(raw.Programme())
        Programme(treaties=(), risk=(), cat=())
        """
        treaties, risk, cat = numbers.treaties, numbers.risk, numbers.cat
        programme = cls(_taken(Treaty, treaties), _taken(Terms, risk), _taken(Terms, cat))
        if bytes(programme._lent) != bytes(numbers):
            raise ValueError("a count is above 8, or an unused place is not 0")
        return programme


@dataclass(frozen=True)
class Scale:
    """A client's own time scale: the shares of the days 1 to 366, in basis points, of its amount premium that a loss
    on a layer with `(time)` is charged. Any shares may be lent, also fewer or more: those that no text reads to are
    refused by the run.

    >>> Scale([7201] * 366).shares[365]
    7201
    """

    shares: Tuple[int, ...]

    def __post_init__(self):
        object.__setattr__(self, "shares", tuple(self.shares))

    def to_raw(self) -> "ctypes.Array[ctypes.c_uint64]":
        """The shares as the library takes them. Numbers that 64 bits do not hold are an error.

        >>> len(Scale([3333] * 365).to_raw())
        365
        >>> Scale([10000, -1]).to_raw()
        Traceback (most recent call last):
        ValueError: shares[1] is -1 and must be from 0 to 2**64 - 1
        """
        shares = _numbers("shares", self.shares, len(self.shares))
        return (ctypes.c_uint64 * len(shares))(*shares)

    # What the runs of a year lend; it is made once, since neither the scale nor a run changes it.
    _lent = functools.cached_property(to_raw)

    @classmethod
    def from_raw(cls, numbers: raw.Scale) -> "Scale":
        """The scale with these shares.

        >>> Scale.from_raw(raw.Scale()).shares == (0,) * 366
        True
        """
        return cls(numbers.shares)


# What a standing has of each layer.
_ROWS = ("risk", "cat", "risk_timed", "cat_timed")


@dataclass(frozen=True)
class Standing:
    """The year so far: the spent amount of each layer in 8 places for each tier, 0 where there is no layer; the last
    day run; and the premium charged this year for each layer with `(time)`, in places likewise, 0 elsewhere.

    >>> Standing().day
    0

    Under a programme without `(time)` the timed premiums are 0 and may be left out:

    >>> kept = [0] * 8 + [70] + [0] * 7 + [7]
    >>> standing = Standing(kept[:8], kept[8:16], kept[16])
    >>> standing.cat[0], standing.day, standing.risk_timed == standing.cat_timed == (0,) * 8
    (70, 7, True)
    """

    risk: Tuple[int, ...] = (0,) * raw.PLACES
    cat: Tuple[int, ...] = (0,) * raw.PLACES
    day: int = 0
    risk_timed: Tuple[int, ...] = (0,) * raw.PLACES
    cat_timed: Tuple[int, ...] = (0,) * raw.PLACES

    def __post_init__(self):
        for name in _ROWS:
            object.__setattr__(self, name, tuple(getattr(self, name)))

    def to_raw(self) -> raw.Standing:
        """The standing to be lent to `run_into`, which moves it on.

        >>> Standing(day=-1).to_raw()
        Traceback (most recent call last):
        ValueError: day is -1 and must be from 0 to 2**64 - 1
        """
        rows = {name: _numbers(name, getattr(self, name), raw.PLACES) for name in _ROWS}
        return raw.Standing(day=_word("day", self.day), **rows)

    @classmethod
    def from_raw(cls, numbers: raw.Standing) -> "Standing":
        """The standing with these numbers.

        >>> standing = Standing(cat=range(8), day=230, risk_timed=range(8, 16))
        >>> Standing.from_raw(standing.to_raw()) == standing
        True
        """
        return cls(day=numbers.day, **{name: tuple(getattr(numbers, name)) for name in _ROWS})
