"""The public calls as the shared object exports them, with C's layouts.

The header include/cession.h says what each field means; a test compares sizes and offsets here with the header's.

>>> table = b"(quota 1 (cede 4000) (capacity 0) (event 15000))\\n"
>>> reading = library().cession_read(table, len(table))
>>> reading.refusal, reading.programme.treaties.places[0].limit
(0, 15000)
"""

import ctypes
import functools
import os
import pathlib
from ctypes import POINTER, Structure, c_char_p, c_size_t, c_uint64, c_void_p

PLACES = 8
RATES = 20
DAYS = 366


class Treaty(Structure):
    """A proportional treaty: kind 1 is a quota share, 2 a surplus. The terms of the other kind are 0."""

    _fields_ = [
        ("kind", c_uint64),
        ("number", c_uint64),
        ("cede", c_uint64),
        ("capacity", c_uint64),
        ("retention", c_uint64),
        ("lines", c_uint64),
        ("limit", c_uint64),
    ]


class Terms(Structure):
    """The terms of an excess layer: each reinstatement's rate, in the order of their use, and 0 past the last; time is
    1 where premium is by amount and time, else 0.
    """

    _fields_ = [
        ("attachment", c_uint64),
        ("limit", c_uint64),
        ("deductible", c_uint64),
        ("reinstatements", c_uint64),
        ("premium", c_uint64),
        ("placed", c_uint64),
        ("rates", c_uint64 * RATES),
        ("time", c_uint64),
    ]


class Treaties(Structure):
    """Treaties in the first `count` places; every number of the other places is 0."""

    _fields_ = [("places", Treaty * PLACES), ("count", c_size_t)]


class Layers(Structure):
    """The layers of one tier, in places likewise."""

    _fields_ = [("places", Terms * PLACES), ("count", c_size_t)]


class Programme(Structure):
    """The contracts of a table."""

    _fields_ = [("treaties", Treaties), ("risk", Layers), ("cat", Layers)]


class Standing(Structure):
    """Each layer's spent amount, by tier and place, the last day run, and each layer's timed premium likewise."""

    _fields_ = [
        ("risk", c_uint64 * PLACES),
        ("cat", c_uint64 * PLACES),
        ("day", c_uint64),
        ("risk_timed", c_uint64 * PLACES),
        ("cat_timed", c_uint64 * PLACES),
    ]


class Scale(Structure):
    """A client's own time scale: the shares of the days 1 to 366."""

    _fields_ = [("shares", c_uint64 * DAYS)]


class Answer(Structure):
    """What writing and running answer."""

    _fields_ = [("refusal", c_uint64), ("number", c_uint64)]


class Reading(Structure):
    """What reading a table answers."""

    _fields_ = [("refusal", c_uint64), ("line", c_uint64), ("programme", Programme)]


class ScaleReading(Structure):
    """What reading a scale answers."""

    _fields_ = [("refusal", c_uint64), ("line", c_uint64), ("scale", Scale)]


class Opening(Structure):
    """What opening a year answers."""

    _fields_ = [("refusal", c_uint64), ("number", c_uint64), ("standing", Standing)]


def _path() -> str:
    """What the loader is asked for: CESSION_LIBRARY, else the file beside this one, else the name alone."""
    name = "libcession.so"
    beside = pathlib.Path(__file__).with_name(name)
    return os.environ.get("CESSION_LIBRARY") or (str(beside) if beside.exists() else name)


@functools.cache
def library() -> ctypes.CDLL:
    """The shared object, loaded at the first call. It is the file that the environment's CESSION_LIBRARY names, else
    libcession.so beside this module, else what the system's loader finds under that name.
    """
    path = _path()
    try:
        found = ctypes.CDLL(path)
    except OSError as error:
        raise OSError(f"cannot load the cession library: {error}; CESSION_LIBRARY may name its file") from error
    year, scale = [Programme, POINTER(Standing)], [POINTER(c_uint64), c_size_t]
    text, room = [c_char_p, c_size_t], [c_void_p, c_size_t]
    calls = {
        "cession_read": (Reading, text),
        "cession_write": (Answer, [Programme, *room]),
        "cession_read_scale": (ScaleReading, text),
        "cession_open": (Opening, [Programme]),
        "cession_run": (Answer, [*year, *text, *room]),
        "cession_run_scaled": (Answer, [*year, *scale, *text, *room]),
    }
    for name, (result, arguments) in calls.items():
        call = getattr(found, name, None)
        if call is None:
            raise OSError(f"{path} is not the cession library: it has no {name}")
        call.restype, call.argtypes = result, arguments
    return found
