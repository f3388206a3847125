#!/usr/bin/env python3
"""Prints the statement of events under a table and a client's own time scale, or the refusal: scaled.py TABLE SCALE
EVENTS, three files. The library is called by way of the Python module cession, which is to be in Python's path.
"""

import sys

sys.dont_write_bytecode = True  # nothing is left beside an installed module

import cession

# As many bytes as the program lends for a statement.
ROOM = 65536


def text(path):
    with open(path, "rb") as file:
        return file.read()


def statement(table, scale, events):
    programme = cession.read(text(table))
    own = cession.read_scale(text(scale))
    buffer = bytearray(ROOM)
    length = cession.run_scaled_into(programme, cession.open_year(programme).to_raw(), own, text(events), buffer)
    return bytes(buffer[:length])


def answer(table, scale, events):
    """The statement or the refusal. That a refusal is of the scale is said on standard error: its line is none of the
    table or of the events.
    """
    try:
        return statement(table, scale, events)
    except cession.Refused as refused:
        if isinstance(refused, cession.ScaleRefused):
            sys.stderr.write("cession: the scale %s is refused: %s\n" % (scale, refused))
        return b"(refused %d %d)\n" % (refused.number, refused.second)


def main(arguments):
    try:
        with open(1, "wb") as file:
            file.write(answer(*arguments))
    except OSError as fault:
        sys.stderr.write("cession: %s\n" % fault)
        return 2
    return 0


if __name__ == "__main__":
    sys.exit(main(sys.argv[1:]))
