"""Prints what the Python module declares, as the program made of the header does: each field's offset and size, each
struct's size, each constant.
"""

import ctypes

import cession
from cession import raw

for structure in ctypes.Structure.__subclasses__():
    if structure.__module__ != raw.__name__:
        continue
    plain = structure.__name__.lower()
    for name, _ in structure._fields_:
        field = getattr(structure, name)
        print(plain, name, field.offset, field.size)
    print(plain, ctypes.sizeof(structure))
for name in ("PLACES", "RATES", "DAYS", "TABLE_BYTES", "EVENTS_BYTES", "QUOTA_SHARE", "SURPLUS"):
    print("constant", name, getattr(cession, name))
for refusal in cession.Refusal:
    print("constant", refusal.name, int(refusal))
