"""Writes folders with programmes that are hard to draw, each with its events, into the folder given."""

import os
import sys

BIG = 10**13


def layer(tier, attachment, limit, deductible=0, back="1 70000 10000", placed=9100, time=""):
    terms = tier, attachment, limit, deductible, back, placed, time
    return "(%s (band %d %d) (deduct %d) (back %s) (placed %d)%s)" % terms


def reinstated(premium, rates):
    return " ".join(map(str, [len(rates), premium] + list(rates)))


def tower(tier, limits, gap):
    """Layers with these limits, each at the end of the one before and a gap further."""
    lines, attachment = [], gap
    for place, limit in enumerate(limits):
        back = reinstated(8000 + limit % 997, [12550 - 725 * one for one in range(place)])
        lines.append(layer(tier, attachment, limit, limit // 3, back, 1237 * place))
        attachment += limit + gap
    return lines


def losses(count, treaties, amount, estimate=None):
    """Losses of falling amounts under these treaties in turn, estimated at the largest if nothing else is said."""
    return " ".join("(loss %d %d %d)" % (treaties[place % len(treaties)], estimate or amount, amount - place)
                    for place in range(count))


def treaties():
    quotas = ["(quota %d (cede 9999) (capacity %d) (event %d))" % (number, BIG, BIG) for number in (1, 2, 3, 4)]
    return quotas + ["(surplus %d (retain %d) (lines 100) (event %d))" % (number, BIG - 1, BIG)
                     for number in (5, 6, 7, 8)]


def programmes():
    spread = [3 * 10**power for power in (1, 7, 3, 9, 4, 11, 2, 5)]
    yield "both-tiers", treaties()[::3] + tower("risk", spread, 11) + tower("cat", sorted(spread), 0), [
        "(event %d %s)" % (day, losses(1 + day % 3, (0, 1, 7), 37 ** (1 + day % 8))) for day in range(1, 201)]
    rising = reinstated(10**12, range(12345, 12365))
    yield "thin", [layer("cat", place * 10**12, 1 + place % 2, 10**15, rising, 10000) for place in range(8)], [
        "(event 1 %s)" % losses(30, (0,), BIG - 1)] * 5
    equal = reinstated(10**12, [20000] * 20)
    # The most that a layer can have recovered, and the most premium by time.
    yield "timed", [layer("cat", place * BIG, BIG, 0, back, 10000, " (time)")
                    for place, back in ((0, equal), (1, rising))], [
        "(event %d %s)" % (day, losses(30, (0,), BIG)) for day in [1] * 20 + [366]]
    yield "largest", treaties() + [layer(tier, BIG, BIG, 10**15, back, 9999)
                                   for tier, back in (("risk", equal), ("cat", rising))], [
        "(event 366 %s)" % losses(40, range(9), BIG)] * 30
    # Sums of 17 digits in the row of the other events: gross, ceded and net.
    yield "sums", ["(quota 1 (cede 5300) (capacity 0) (event 0))"], [
        "(event %d %s)" % (min(day, 366), losses(6, (1,), BIG - day, 1)) for day in range(1, 380)]
    yield "treaties", treaties()[:2], ["(event 5 (loss 1 70 61) (loss 2 70 33))", "(event 6)"]
    yield "one-risk", [layer("risk", 700, 1300)], ["(event 4 (loss 0 900 1500))"]
    # Half of 601 is recovered: 300.5, and the half goes up.
    yield "half", [layer("risk", 700, 1300, placed=5000)], ["(event 4 (loss 0 900 1301))"]
    # Subjects at the ends of stretches: their letters stand at zigzags.
    yield "ends", [layer("cat", 10**power, 9 * 10**power) for power in range(3, 11)], [
        "(event %d (loss 0 1 %d))" % (power, 10**power) for power in range(3, 13)]
    yield "unit", [layer("cat", 0, 1), layer("cat", 1, BIG - 1), layer("cat", BIG, BIG)], [
        "(event 8 (loss 0 1 1))", "(event 9 (loss 0 1 %d))" % BIG]
    yield "one-cat", [layer("cat", 0, 1300)], ["(event 4 (loss 0 900 %d))" % BIG, "(event 5)"]
    yield "no-events", tower("cat", [40, 90], 5), []
    yield "no-contracts", [], ["(event 4 (loss 0 900 1500))"]


def main(folder):
    for name, table, events in programmes():
        os.makedirs(os.path.join(folder, name), exist_ok=True)
        for file, lines in (("programme.txt", table), ("events.txt", events)):
            with open(os.path.join(folder, name, file), "w") as text:
                text.writelines(line + "\n" for line in lines)


if __name__ == "__main__":
    main(sys.argv[1])
