"""Why a call was turned down."""

import enum
from typing import Optional


class Refusal(enum.IntEnum):
    """The numbers of documents 01 and 02 by name; include/cession.h says what each of them means.

    >>> Refusal.DAY_GOES_BACK == 13
    True
    """

    TABLE_TOO_LONG = 1
    NOT_A_TABLE_FORM = 2
    TABLE_NUMBER_OUT_OF_RANGE = 3
    TABLE_OUT_OF_ORDER = 4
    BANDS_OVERLAP = 5
    NOT_A_PROGRAMME = 6
    BUFFER_TOO_SHORT = 7
    NOT_A_STANDING = 8
    EVENTS_TOO_LONG = 9
    NOT_AN_EVENT_FORM = 10
    EVENT_NUMBER_OUT_OF_RANGE = 11
    TOO_MANY_LOSSES = 12
    DAY_GOES_BACK = 13
    NO_SUCH_TREATY = 14
    NOT_A_SCALE = 28
    SHARE_OUT_OF_RANGE = 29
    SHARE_RISES = 30


_TABLE = "line {second} of the treaty table "
_EVENTS = "line {second} of the events "
_SCALE = "line {second} of the scale "

_SENTENCES = {
    Refusal.TABLE_TOO_LONG: "the treaty table is longer than 8,192 bytes",
    Refusal.NOT_A_TABLE_FORM: _TABLE + "is none of the forms quota, surplus, risk and cat",
    Refusal.TABLE_NUMBER_OUT_OF_RANGE: _TABLE + "has a number outside its range",
    Refusal.TABLE_OUT_OF_ORDER: _TABLE + "is out of order: treaties with rising numbers come first, then up to 8 "
    "risk layers, then up to 8 cat layers",
    Refusal.BANDS_OVERLAP: _TABLE + "has a layer that attaches below the end of the layer before it",
    Refusal.NOT_A_PROGRAMME: "the programme is not one that a treaty table can state",
    Refusal.BUFFER_TOO_SHORT: "the text needs {second} bytes, more than the buffer has",
    Refusal.NOT_A_STANDING: "the standing is not one of this programme: a spent amount is above its layer's cap or "
    "belongs to no layer, a timed premium is above its layer's amount premium or belongs to no layer with (time), or "
    "the day is after 366",
    Refusal.EVENTS_TOO_LONG: "the events are longer than 65,536 bytes",
    Refusal.NOT_AN_EVENT_FORM: _EVENTS + "is not an event form",
    Refusal.EVENT_NUMBER_OUT_OF_RANGE: _EVENTS + "has a number outside its range",
    Refusal.TOO_MANY_LOSSES: _EVENTS + "has more than 64 losses",
    Refusal.DAY_GOES_BACK: _EVENTS + "has a day before that of the event before it",
    Refusal.NO_SUCH_TREATY: _EVENTS + "has a loss under a treaty that the treaty table does not have",
    Refusal.NOT_A_SCALE: _SCALE + "is not that of a day: a scale has a line (day D S) for each of the days 1 to 366, "
    "in order",
    Refusal.SHARE_OUT_OF_RANGE: _SCALE + "has a share above 10,000",
    Refusal.SHARE_RISES: _SCALE + "has a share above that of the day before",
}

# Of a scale that no single line is at fault with.
_SHARES = (
    "the shares are not those of a scale: one for each of 366 days, from 0 to 10,000 and none above that of the day "
    "before"
)

_UNNAMED = "the library refused with {number} and {second}, which this version does not know"


class Refused(Exception):
    """A call was turned down; nothing that was lent to it has changed. Its text is a sentence for the person whose
    table, events or call it is about.

    `number` is the number of document 01 or 02, which equals its name in `Refusal`; `second` is the line at fault, the
    length needed, or 0. What was turned down is the class: `TableRefused`, `ProgrammeRefused`, `BufferTooShort`,
    `StandingRefused`, `EventsRefused` or `ScaleRefused`.

    >>> error = refused(13, 2)
    >>> type(error).__name__, error.number, error.second, error.line
    ('EventsRefused', 13, 2, 2)
    >>> print(error)
    line 2 of the events has a day before that of the event before it
    """

    def __init__(self, number: int, second: int):
        super().__init__(number, second)
        self.number = number
        self.second = second

    def __str__(self) -> str:
        return _SENTENCES.get(self.number, _UNNAMED).format(number=self.number, second=self.second)

    @property
    def line(self) -> Optional[int]:
        """The line at fault, from 1; None where no single line is.

        >>> refused(Refusal.BANDS_OVERLAP, 4).line
        4
        >>> refused(Refusal.EVENTS_TOO_LONG, 0).line is None
        True
        """
        return self.second or None


class TableRefused(Refused):
    """A table text was turned down.

    >>> refused(2, 1)
    TableRefused(2, 1)
    """


class ProgrammeRefused(Refused):
    """A programme was turned down.

    >>> refused(6, 0)
    ProgrammeRefused(6, 0)
    """


class BufferTooShort(Refused):
    """A text is longer than the buffer lent for it.

    >>> refused(7, 240)
    BufferTooShort(7, 240)
    """

    line = None

    @property
    def needed(self) -> int:
        """The length needed, in bytes.

        >>> BufferTooShort(7, 443).needed
        443
        """
        return self.second


class StandingRefused(Refused):
    """A standing was turned down.

    >>> refused(8, 0)
    StandingRefused(8, 0)
    """


class EventsRefused(Refused):
    """An events text was turned down.

    >>> refused(9, 0)
    EventsRefused(9, 0)
    """


class ScaleRefused(Refused):
    """A scale was turned down, a text or the shares lent to a run.

    >>> refused(28, 367)
    ScaleRefused(28, 367)
    >>> print(refused(29, 4))
    line 4 of the scale has a share above 10,000
    """

    def __str__(self) -> str:
        is_of_no_line = self.number == Refusal.NOT_A_SCALE and not self.second
        return _SHARES if is_of_no_line else super().__str__()


_KINDS = {
    **dict.fromkeys(range(Refusal.TABLE_TOO_LONG, Refusal.NOT_A_PROGRAMME), TableRefused),
    Refusal.NOT_A_PROGRAMME: ProgrammeRefused,
    Refusal.BUFFER_TOO_SHORT: BufferTooShort,
    Refusal.NOT_A_STANDING: StandingRefused,
    **dict.fromkeys(range(Refusal.EVENTS_TOO_LONG, Refusal.NO_SUCH_TREATY + 1), EventsRefused),
    **dict.fromkeys(range(Refusal.NOT_A_SCALE, Refusal.SHARE_RISES + 1), ScaleRefused),
}


def refused(number: int, second: int) -> Refused:
    """The exception for a refusal's two numbers, as the library and, from N 1 on, the program's `(refused N W)` have
    them. A number
    that has no name here, from a library that is newer than this module, is a plain `Refused`.

    >>> refused(15, 0)
    Refused(15, 0)
    """
    return _KINDS.get(number, Refused)(number, second)
