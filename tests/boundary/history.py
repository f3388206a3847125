"""A history through the Python module. Called as `history.py FOLDER ROOM`, it does and prints what history.c does. The
owning forms `run` and `write` are held against the lending ones.
"""

import itertools
import pathlib
import sys

import cession


def treaty_line(treaty):
    if treaty.kind == cession.QUOTA_SHARE:
        terms = f"(cede {treaty.cede}) (capacity {treaty.capacity})"
        return f"(quota {treaty.number} {terms} (event {treaty.limit}))\n"
    terms = f"(retain {treaty.retention}) (lines {treaty.lines})"
    return f"(surplus {treaty.number} {terms} (event {treaty.limit}))\n"


def layer_line(tier, layer):
    rates = "".join(f" {rate}" for rate in layer.rates[: layer.reinstatements])
    back = f"(back {layer.reinstatements} {layer.premium}{rates})"
    band = f"(band {layer.attachment} {layer.limit})"
    time = " (time)" if layer.time else ""
    return f"({tier} {band} (deduct {layer.deductible}) {back} (placed {layer.placed}){time})\n"


def fields(programme):
    lines = [treaty_line(treaty) for treaty in programme.treaties]
    lines += [layer_line("risk", layer) for layer in programme.risk]
    lines += [layer_line("cat", layer) for layer in programme.cat]
    return "".join(lines)


def standing_line(standing):
    rows = (standing.risk, standing.cat, standing.risk_timed, standing.cat_timed)
    risk, cat, risk_timed, cat_timed = (" ".join(map(str, row)) for row in rows)
    timed = f"(risk-timed {risk_timed}) (cat-timed {cat_timed})"
    return f"(standing (risk {risk}) (cat {cat}) (day {standing.day}) {timed})\n"


def refusal_line(refused):
    return f"(refused {refused.number} {refused.second})\n"


def lending(programme, standing, events, room):
    """The statement and the standing after a run that is lent a buffer of so many bytes."""
    lent, buffer = standing.to_raw(), bytearray(room)
    length = cession.run_into(programme, lent, events, buffer)
    return bytes(buffer[:length]), cession.Standing.from_raw(lent)


def answer(call, *arguments):
    """What a call gives, or the two numbers of its refusal."""
    try:
        return call(*arguments)
    except cession.Refused as refused:
        return refused.number, refused.second


def hold_run(programme, standing, events, room):
    """The owning run gives what the lending one does, and where the buffer lent was too short, what a buffer of the
    length told takes.
    """
    lent = answer(lending, programme, standing, events, room)
    if lent[0] == cession.Refusal.BUFFER_TOO_SHORT:
        lent = lending(programme, standing, events, lent[1])
    assert answer(cession.run, programme, standing, events) == lent, "the owning run and the lending one differ"


def runs(programme, folder, room):
    standing = cession.open_year(programme)
    printed = []
    for place in itertools.count(1):
        text = folder / f"{place}.txt"
        if not text.exists():
            return "".join(printed)
        events = text.read_bytes()
        hold_run(programme, standing, events, room)
        try:
            statement, standing = lending(programme, standing, events, room)
            printed.append(statement.decode("ascii"))
        except cession.Refused as refused:
            printed.append(refusal_line(refused))
        printed.append(standing_line(standing))


def written(programme):
    table = cession.write(programme)
    buffer = bytearray(len(table))
    assert cession.write_into(programme, buffer) == len(table), "the owning write and the lending one differ"
    assert buffer == table, "the owning write and the lending one differ"
    return table.decode("ascii")


def history(folder, room):
    try:
        programme = cession.read((folder / "programme.txt").read_bytes())
    except cession.Refused as refused:
        return refusal_line(refused)
    return fields(programme) + runs(programme, folder, room) + written(programme)


sys.stdout.write(history(pathlib.Path(sys.argv[1]), int(sys.argv[2])))
