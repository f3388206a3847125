"""What the Python module adds to a call: its calls against bare calls of ctypes with everything made beforehand, on
the main account's table and year. `bash bench/run` runs it. Nothing here is part of the gate.
"""

import ctypes
import pathlib
import time

import cession
from cession import raw

FOLDER = pathlib.Path(__file__).parent.parent / "examples" / "main-account"
TABLE, EVENTS, STATEMENT = ((FOLDER / f"{name}.txt").read_bytes() for name in ("programme", "events", "statement"))
ROOM = 65_536
ROUNDS = 200
TURNS = 200


def mean(call):
    """The mean time of a call, in microseconds."""
    start = time.perf_counter_ns()
    for _ in range(TURNS):
        call()
    return (time.perf_counter_ns() - start) / TURNS / 1000


def compare(name, *calls):
    """The least times of three forms of a call, taken in turn: bare, lending a buffer, owning it."""
    least = [float("inf")] * len(calls)
    for _ in range(ROUNDS):
        least = [min(before, mean(call)) for before, call in zip(least, calls)]
    bare, lending, owning = least
    print(
        f"Python, {name}: bare call {bare:.2f} us, {name}_into {lending:.2f} us ({lending - bare:+.2f} us, ratio "
        f"{lending / bare:.2f}), owning its buffer {owning:.2f} us (ratio {owning / bare:.2f})"
    )


programme = cession.read(TABLE)
fresh = cession.open_year(programme)
numbers, year = programme.to_raw(), fresh.to_raw()
buffer, room = bytearray(ROOM), (ctypes.c_char * ROOM)()
library = raw.library()


def bare_run():
    lent = raw.Standing.from_buffer_copy(year)
    return library.cession_run(numbers, lent, EVENTS, len(EVENTS), room, ROOM).number


def lending_run():
    lent = raw.Standing.from_buffer_copy(year)
    return cession.run_into(programme, lent, EVENTS, buffer)


assert bare_run() == lending_run() == len(STATEMENT) and room[: len(STATEMENT)] == STATEMENT
assert buffer.startswith(STATEMENT) and cession.run(programme, fresh, EVENTS)[0] == STATEMENT
compare(
    "write",
    lambda: library.cession_write(numbers, room, ROOM).number,
    lambda: cession.write_into(programme, buffer),
    lambda: cession.write(programme),
)
compare("run", bare_run, lending_run, lambda: cession.run(programme, fresh, EVENTS))
