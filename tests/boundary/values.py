"""Values that the library cannot be lent are a Python error that names them, before any call. Prints how many were
tried.
"""

import array
import ctypes
import ctypes.util
import os

import cession
from cession import Programme, Scale, Standing, Terms, Treaty, raw

SOUND = Terms(attachment=50, limit=100, placed=9000)
NO_CALL = [
    (ValueError, "treaties[0].cede", Programme(treaties=[Treaty(cession.QUOTA_SHARE, 1, cede=2**64)])),
    (ValueError, "treaties[1].limit", Programme(treaties=[Treaty(2, 1, retention=9), Treaty(2, 2, limit=-1)])),
    (ValueError, "risk[1].placed", Programme(risk=[SOUND, Terms(150, 7, placed=2**64 + 9000)])),
    (ValueError, "cat[0].premium", Programme(cat=[Terms(50, 100, premium=2**100)])),
    (TypeError, "cat[0].attachment", Programme(cat=[Terms(50.5, 100)])),
    (ValueError, "cat[1].rates[1]", Programme(cat=[SOUND, Terms(150, 7, reinstatements=2, rates=[5000, 2**64])])),
    (TypeError, "risk[0].rates[0]", Programme(risk=[Terms(50, 100, reinstatements=1, rates=["5000"])])),
    (ValueError, "risk[0].rates has 21 places", Programme(risk=[Terms(50, 100, rates=[1] * 21)])),
    (ValueError, "cat[0].time", Programme(cat=[Terms(50, 100, time=2**64)])),
    (TypeError, "risk[0].time is a bool", Programme(risk=[Terms(50, 100, time=True)])),
    (TypeError, "treaties[0].number", Programme(treaties=[Treaty(1, "1")])),
    (ValueError, "treaties has 9 places", Programme(treaties=[Treaty(1, number) for number in range(1, 10)])),
    (ValueError, "risk has 9 places", Programme(risk=[SOUND] * 9)),
    (ValueError, "cat has 10 places", Programme(cat=[SOUND] * 10)),
    (ValueError, "risk[7]", Standing(risk=(0,) * 7 + (2**64,))),
    (ValueError, "cat[0]", Standing(cat=(-1,) + (0,) * 7)),
    (ValueError, "cat has 7 places", Standing(cat=(0,) * 7)),
    (ValueError, "risk has 9 places", Standing(risk=(0,) * 9)),
    (ValueError, "risk_timed[7]", Standing(risk_timed=(0,) * 7 + (2**64,))),
    (ValueError, "cat_timed has 9 places", Standing(cat_timed=(0,) * 9)),
    (TypeError, "cat_timed[3] is a float", Standing(cat_timed=(0, 0, 0, 0.5, 0, 0, 0, 0))),
    (ValueError, "day", Standing(day=2**64)),
    (TypeError, "day", Standing(day=None)),
    (TypeError, "day is a bool", Standing(day=True)),
    (TypeError, "risk[0] is a Treaty", Programme(risk=[Treaty(1, 1)])),
    (TypeError, "treaties[1] is a Terms", Programme(treaties=[Treaty(1, 1), SOUND])),
    (ValueError, "shares[365]", Scale([10000] * 365 + [2**64])),
    (ValueError, "shares[0]", Scale([-1])),
    (TypeError, "shares[1] is a float", Scale([10000, 0.5])),
    (TypeError, "shares[0] is a bool", Scale([True] * 366)),
]


class Longer(bytes):
    """Bytes that tell another length than they have."""

    def __len__(self):
        return 60000


LENT = Standing().to_raw()
NO_LENDING = [
    (TypeError, "text is a str", lambda: cession.read("(quota")),
    (TypeError, "text is a Longer", lambda: cession.read(Longer())),
    (TypeError, "events is a bytearray", lambda: cession.run(Programme(), Standing(), bytearray())),
    (TypeError, "events is a Longer", lambda: cession.run(Programme(), Standing(), Longer())),
    (TypeError, "programme is a NoneType", lambda: cession.write(None)),
    (TypeError, "programme is a Programme", lambda: cession.open_year(raw.Programme())),
    (TypeError, "standing is a NoneType", lambda: cession.run(Programme(), None, b"")),
    (TypeError, "standing is a NoneType", lambda: cession.run_into(Programme(), None, b"", bytearray(9))),
    (TypeError, "standing is a Standing", lambda: cession.run_into(Programme(), Standing(), b"", bytearray(9))),
    (ValueError, "overlap", lambda: cession.run_into(Programme(), LENT, b"", LENT)),
    (TypeError, "text is a str", lambda: cession.read_scale("(day 1 10000)")),
    (TypeError, "scale is a list", lambda: cession.run_scaled(Programme(), Standing(), [10000] * 366, b"")),
    (TypeError, "scale is a NoneType", lambda: cession.run_scaled_into(Programme(), LENT, None, b"", bytearray(9))),
    (TypeError, "standing is a NoneType", lambda: cession.run_scaled(Programme(), None, Scale([0] * 366), b"")),
    (ValueError, "overlap", lambda: cession.run_scaled_into(Programme(), LENT, Scale([0] * 366), b"", LENT)),
    (TypeError, "not writable", lambda: cession.write_into(Programme(cat=[SOUND]), b"read only")),
    (TypeError, "contiguous", lambda: cession.write_into(Programme(cat=[SOUND]), memoryview(bytearray(200))[::2])),
    (ValueError, "count", lambda: Programme.from_raw(raw.Programme(cat=raw.Layers(count=9)))),
    (ValueError, "unused", lambda: Programme.from_raw(raw.Programme(cat=raw.Layers((raw.Terms * 8)(raw.Terms(1)))))),
]


def lend(value):
    """Lends a programme to writing, or a standing or a scale to a run under a programme that is sound."""
    if isinstance(value, Programme):
        return cession.write(value)
    if isinstance(value, Scale):
        return cession.run_scaled(Programme(), Standing(), value, b"")
    return cession.run(Programme(), value, b"")


def raised(call):
    try:
        call()
    except Exception as error:
        return error


def check(kind, words, call):
    error = raised(call)
    assert type(error) is kind and words in str(error), f"not a {kind.__name__} that says {words}: {error!r}"


class Uncalled:
    """In the library's place: it has the calls, and a call of one is an error that nothing here expects."""

    def __getattr__(self, name):
        def call(*lent):
            raise AssertionError(f"{name} is called")

        return call


library, raw.library = raw.library, Uncalled
for kind, words, value in NO_CALL:
    check(kind, words, lambda: lend(value))
for kind, words, call in NO_LENDING:
    check(kind, words, call)
check(AssertionError, "cession_write is called", lambda: lend(Programme(cat=[SOUND])))
raw.library = library
# Any memory that can be written to is a buffer, counted in bytes; a needed length is no line.
TEXT = b"(cat (band 50 100) (deduct 0) (back 0 0) (placed 9000))\n"
words = array.array("Q", [0] * 8)
assert cession.write_into(Programme(cat=[SOUND]), words) == len(TEXT) and words.tobytes() == TEXT.ljust(64, b"\0")
assert cession.refused(7, 5).line is None and cession.refused(10, 5).line == 5
cession.run_into(Programme(), LENT, b"", (ctypes.c_char * 99)())
library.cache_clear()
os.environ["CESSION_LIBRARY"] = "/no such library"
check(OSError, "CESSION_LIBRARY", lambda: lend(Programme(cat=[SOUND])))
os.environ["CESSION_LIBRARY"] = ctypes.util.find_library("c")
check(OSError, "has no cession_read", lambda: lend(Programme(cat=[SOUND])))
print(len(NO_CALL) + len(NO_LENDING))
