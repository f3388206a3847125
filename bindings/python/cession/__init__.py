"""The cession engine for Python: reads and writes treaty tables, reads time scales, opens a year and runs events
through it.

A `Programme` has the contracts of a treaty table, a `Standing` the year so far, a `Scale` a client's own time shares. A
run takes an events text and gives the statement and the standing after it; a call that is turned down raises `Refused`
and changes nothing. Amounts are whole cents; shares and rates are basis points, 10,000 to the whole. Every division is
settled to the nearest cent, halves up.

>>> import cession
>>> table = b"(cat (band 100000000 150000000) (deduct 0) (back 1 75000000 5000) (placed 8000))\\n"
>>> programme = cession.read(table)
>>> standing = cession.open_year(programme)
>>> statement, standing = cession.run(programme, standing, b"(event 230 (loss 0 350000000 350000000))\\n")
>>> print(statement.decode().splitlines()[1])
(layer cat 1 (deductible 0) (cover 150000000) (recovered 120000000) (premium 30000000))
>>> standing.cat[0], standing.day
(150000000, 230)

A first reinstatement that is free, and a second at 100% of the premium: what is used above 100 is charged.

>>> layer = cession.Terms(attachment=0, limit=100, reinstatements=2, premium=1000, placed=10000, rates=(0, 10000))
>>> two = cession.Programme(cat=[layer])
>>> events = b"(event 9 (loss 0 100 100))\\n(event 10 (loss 0 50 50))\\n"
>>> print(cession.run(two, cession.open_year(two), events)[0].decode().splitlines()[2])
(layer cat 1 (deductible 0) (cover 150) (recovered 150) (premium 500))

By amount and time: on day 147 three fifths of the year are left, and of the premium 30,000,000 as above.

>>> timed = cession.read(table.replace(b"8000)", b"8000) (time)"))
>>> events = b"(event 147 (loss 0 350000000 350000000))\\n"
>>> cession.run(timed, cession.open_year(timed), events)[1].cat_timed[0]
18000000

By a scale of the client's own: nine tenths of the premium on every day up to 180, then nothing.

>>> lines = [b"(day %d %d)\\n" % (day, 9000 if day <= 180 else 0) for day in range(1, 367)]
>>> scale = cession.read_scale(b"".join(lines))
>>> cession.run_scaled(timed, cession.open_year(timed), scale, events)[1].cat_timed[0]
27000000

Half of 101 is 50.5:

>>> half = cession.read(b"(quota 1 (cede 5000) (capacity 0) (event 0))\\n")
>>> print(cession.run(half, cession.open_year(half), b"(event 4 (loss 1 101 101))\\n")[0].decode().splitlines()[1])
(treaty 1 (ceded 51))

A call that is turned down:

>>> try:
...     cession.run(programme, standing, b"(event 231)\\n(event 367)\\n")
... except cession.EventsRefused as refused:
...     print(refused.number, refused.line, refused)
11 2 line 2 of the events has a number outside its range

The shared object is the file that the environment's CESSION_LIBRARY names, else libcession.so beside this module, else
what the system's loader finds under that name. The calls are pure functions of what is lent to them and may run in any
number of threads at once; a run takes about 23 kB of stack for up to 1,024 bytes of events and about 142 kB for the
longest text, so that a thread of 256 kB has enough.
"""

from .calls import (
    EVENTS_BYTES,
    TABLE_BYTES,
    open_year,
    read,
    read_scale,
    run,
    run_into,
    run_scaled,
    run_scaled_into,
    write,
    write_into,
)
from .contracts import QUOTA_SHARE, SURPLUS, Programme, Scale, Standing, Terms, Treaty
from .raw import DAYS, PLACES, RATES
from .refusals import (
    BufferTooShort,
    EventsRefused,
    ProgrammeRefused,
    Refusal,
    Refused,
    ScaleRefused,
    StandingRefused,
    TableRefused,
    refused,
)

__all__ = [
    "BufferTooShort",
    "DAYS",
    "EVENTS_BYTES",
    "EventsRefused",
    "PLACES",
    "Programme",
    "ProgrammeRefused",
    "QUOTA_SHARE",
    "RATES",
    "Refusal",
    "Refused",
    "SURPLUS",
    "Scale",
    "ScaleRefused",
    "Standing",
    "StandingRefused",
    "TABLE_BYTES",
    "TableRefused",
    "Terms",
    "Treaty",
    "open_year",
    "read",
    "read_scale",
    "refused",
    "run",
    "run_into",
    "run_scaled",
    "run_scaled_into",
    "write",
    "write_into",
]
