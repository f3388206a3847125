"""The public calls."""

import ctypes
from typing import Callable, Tuple

from . import raw
from .contracts import Programme, Scale, Standing
from .refusals import BufferTooShort, refused

TABLE_BYTES = 8192
EVENTS_BYTES = 65536


def _accepted(refusal: int, number: int) -> int:
    """The number of an accepted call; a refusal is raised."""
    if refusal:
        raise refused(refusal, number)
    return number


def _given(name: str, value, kind: type, wanted: str):
    """The value, if it is of just this kind: bytes of a derived kind may tell a length that they do not have."""
    if type(value) is not kind:
        raise TypeError(f"{name} is a {type(value).__name__} and must be {wanted}")
    return value


def _room(buffer):
    """The bytes of a buffer, to be lent, and their number."""
    length = memoryview(buffer).nbytes
    return (ctypes.c_char * length).from_buffer(buffer), length


def _lent(programme: Programme) -> raw.Programme:
    """The programme as the library takes it."""
    return _given("programme", programme, Programme, "a Programme")._lent


def _shares(scale: Scale):
    """The scale as the library takes it, and the number of its shares."""
    lent = _given("scale", scale, Scale, "a Scale")._lent
    return lent, len(lent)


def _apart(room, length: int, standing: raw.Standing):
    """What a run writes to must not overlap."""
    start, end = ctypes.addressof(room), ctypes.addressof(room) + length
    lent = ctypes.addressof(standing)
    if start < lent + ctypes.sizeof(standing) and lent < end:
        raise ValueError("buffer and standing overlap")


def _owned(first: int, call: Callable[[bytearray], int]) -> bytes:
    """The text that a call writes. It is lent a buffer of the first length and, where it tells that it needs more, one
    of the length told: a refused call has changed nothing.
    """
    buffer = bytearray(first)
    try:
        length = call(buffer)
    except BufferTooShort as short:
        buffer = bytearray(short.needed)
        length = call(buffer)
    return bytes(memoryview(buffer)[:length])


def read(text: bytes) -> Programme:
    """Reads a table text. An empty text is the programme without contracts.

    >>> programme = read(b"(quota 1 (cede 4000) (capacity 20000) (event 0))\\n")
    >>> programme.treaties[0].cede
    4000
    >>> read(b"(quota 1)\\n")
    Traceback (most recent call last):
    cession.refusals.TableRefused: line 1 of the treaty table is none of the forms quota, surplus, risk and cat
    """
    reading = raw.library().cession_read(_given("text", text, bytes, "bytes"), len(text))
    _accepted(reading.refusal, reading.line)
    return Programme.from_raw(reading.programme)


def write(programme: Programme) -> bytes:
    """Writes the table text: the text that was read, if one was.

    >>> from cession import Terms
    >>> write(Programme(cat=[Terms(attachment=50, limit=100, placed=9000)]))
    b'(cat (band 50 100) (deduct 0) (back 0 0) (placed 9000))\\n'
    >>> write(Programme(cat=[Terms(attachment=50, limit=100, placed=9000, time=1)]))
    b'(cat (band 50 100) (deduct 0) (back 0 0) (placed 9000) (time))\\n'
    >>> write(Programme(cat=[Terms(attachment=50, limit=0)]))
    Traceback (most recent call last):
    cession.refusals.ProgrammeRefused: the programme is not one that a treaty table can state
    """
    return _owned(TABLE_BYTES, lambda buffer: write_into(programme, buffer))


def write_into(programme: Programme, buffer: bytearray) -> int:
    """Writes the table text into a buffer and gives its length; the bytes past it are left as they were. The buffer
    may be anything that can be written to as bytes, also a part of a bytearray by way of `memoryview`.

    >>> buffer = bytearray(100)
    >>> length = write_into(read(b"(surplus 2 (retain 10000) (lines 3) (event 0))\\n"), buffer)
    >>> bytes(buffer[:length])
    b'(surplus 2 (retain 10000) (lines 3) (event 0))\\n'
    """
    room, length = _room(buffer)
    answer = raw.library().cession_write(_lent(programme), room, length)
    return _accepted(answer.refusal, answer.number)


def read_scale(text: bytes) -> Scale:
    """Reads a scale text: 366 lines `(day D S)`, D from 1 to 366 in order, S from 0 to 10,000 and never rising.

    >>> steps = [(day, 10000 if day <= 90 else 2500) for day in range(1, 367)]
    >>> scale = read_scale(b"".join(b"(day %d %d)\\n" % step for step in steps))
    >>> scale.shares[89:91]
    (10000, 2500)
    >>> read_scale(b"(day 1 9000)\\n(day 2 9001)\\n")
    Traceback (most recent call last):
    cession.refusals.ScaleRefused: line 2 of the scale has a share above that of the day before
    """
    reading = raw.library().cession_read_scale(_given("text", text, bytes, "bytes"), len(text))
    _accepted(reading.refusal, reading.line)
    return Scale.from_raw(reading.scale)


def open_year(programme: Programme) -> Standing:
    """Opens a year: nothing spent, no day run.

    >>> open_year(Programme()).day
    0
    """
    opening = raw.library().cession_open(_lent(programme))
    _accepted(opening.refusal, opening.number)
    return Standing.from_raw(opening.standing)


def _run(call: str, programme: Programme, standing: raw.Standing, scale: tuple, events: bytes, buffer) -> int:
    """The length of the statement that a call for runs writes; a scale and its length go before the events."""
    _given("standing", standing, raw.Standing, "what Standing.to_raw gives")
    _given("events", events, bytes, "bytes")
    room, length = _room(buffer)
    _apart(room, length, standing)
    answer = getattr(raw.library(), call)(_lent(programme), standing, *scale, events, len(events), room, length)
    return _accepted(answer.refusal, answer.number)


def run(programme: Programme, standing: Standing, events: bytes) -> Tuple[bytes, Standing]:
    """Runs an events text and gives the statement, however long it is, and the standing after the run.

    >>> programme = read(b"(quota 1 (cede 4000) (capacity 0) (event 0))\\n")
    >>> statement, standing = run(programme, open_year(programme), b"(event 40 (loss 1 101 101))\\n")
    >>> print(statement.decode().splitlines()[0])
    (event 40 (gross 101) (ceded 40) (risk 0) (cat 0) (net 61) (premium 0))
    >>> standing.day
    40
    >>> run(programme, standing, b"(event 41)\\n(event 39)\\n")
    Traceback (most recent call last):
    cession.refusals.EventsRefused: line 2 of the events has a day before that of the event before it
    """
    lent = _given("standing", standing, Standing, "a Standing").to_raw()
    statement = _owned(EVENTS_BYTES, lambda buffer: run_into(programme, lent, events, buffer))
    return statement, Standing.from_raw(lent)


def run_into(programme: Programme, standing: raw.Standing, events: bytes, buffer: bytearray) -> int:
    """Runs an events text, moves the standing on, writes the statement into a buffer and gives its length. The
    standing is lent: `Standing.to_raw` makes one, `Standing.from_raw` takes it back. A refused run leaves it and the
    buffer as they were. The buffer may be what `write_into` takes.

    >>> programme, buffer = Programme(), bytearray(200)
    >>> lent = open_year(programme).to_raw()
    >>> length = run_into(programme, lent, b"(event 9)\\n", buffer)
    >>> length, Standing.from_raw(lent).day
    (132, 9)
    >>> run_into(programme, lent, b"(event 10)\\n", bytearray(20))
    Traceback (most recent call last):
    cession.refusals.BufferTooShort: the text needs 133 bytes, more than the buffer has
    >>> lent.day
    9
    """
    return _run("cession_run", programme, standing, (), events, buffer)


def run_scaled(programme: Programme, standing: Standing, scale: Scale, events: bytes) -> Tuple[bytes, Standing]:
    """Runs as `run` does, with premium by time charged at the shares of a scale. All runs of a year are lent one scale:
    the standing does not say which. Half of the limit costs half of 365,000; 182,500 x 6,667 / 10,000 is 121,672.75.

    >>> table = b"(cat (band 0 1000000) (deduct 0) (back 1 365000 10000) (placed 10000) (time))\\n"
    >>> programme, events = read(table), b"(event 184 (loss 0 500000 500000))\\n"
    >>> statement, standing = run_scaled(programme, open_year(programme), Scale([6667] * 366), events)
    >>> standing.cat_timed[0]
    121673
    >>> from cession import ScaleRefused
    >>> try:
    ...     run_scaled(programme, standing, Scale([6667] * 365), b"")
    ... except ScaleRefused as refused:
    ...     refused.number, refused.second
    (28, 0)
    """
    lent = _given("standing", standing, Standing, "a Standing").to_raw()
    statement = _owned(EVENTS_BYTES, lambda buffer: run_scaled_into(programme, lent, scale, events, buffer))
    return statement, Standing.from_raw(lent)


def run_scaled_into(
    programme: Programme, standing: raw.Standing, scale: Scale, events: bytes, buffer: bytearray
) -> int:
    """Runs as `run_into` does, with premium by time charged at the shares of a scale.

    >>> programme, buffer = Programme(), bytearray(200)
    >>> lent = open_year(programme).to_raw()
    >>> run_scaled_into(programme, lent, Scale([10000] * 366), b"(event 9)\\n", buffer), lent.day
    (132, 9)
    """
    return _run("cession_run_scaled", programme, standing, _shares(scale), events, buffer)
