"""The money axis of a tower: linear from 0, unless a band would be too low to be seen.

It is then cut into stretches, each of them linear, so that the heights of the bands of one stretch can be compared.
Numbers are pixels, and y grows downwards.
"""

from typing import NamedTuple

SMALLEST = 7  # no band is drawn less high than this
LEAST = 36  # nor a stretch than this, so that it has room for two labels
HIGHEST = 320  # the height of a tower that needs no more, and the most for a stretch of several bands
CUT = 22  # the height between two stretches
COST = 80  # a stretch more has to save this much height


class Stretch(NamedTuple):
    low: int
    high: int
    bottom: float
    top: float

    def y(self, amount):
        return self.bottom - (self.bottom - self.top) * (amount - self.low) / (self.high - self.low)


class Axis:
    """Stretches from the bottom up, the lowest of them from 0."""

    def __init__(self, stretches):
        self.stretches = stretches

    @property
    def top(self):
        return self.stretches[-1].top

    @property
    def bottom(self):
        return self.stretches[0].bottom

    def stretch(self, amount):
        return next(stretch for stretch in self.stretches if amount <= stretch.high)


def parts_of(bands, top):
    """Ends of bands and of what lies between them, from 0 to the top, each with the limit of its band or 0."""
    parts, low = [], 0
    for band in bands:
        if band.attachment > low:
            parts.append((low, band.attachment, 0))
        parts.append((band.attachment, band.end, band.limit))
        low = band.end
    if top > low:
        parts.append((low, top, 0))
    return parts


def height_of(parts):
    """The height of a stretch of these parts, at which its smallest band is as high as it must be."""
    limits = [limit for _, _, limit in parts if limit]
    return max(LEAST, SMALLEST * (parts[-1][1] - parts[0][0]) / min(limits)) if limits else LEAST


def cut_up(parts):
    """The parts in stretches, none of several parts higher than HIGHEST.

    Of all ways to cut them, the one whose heights, with COST added for each stretch, have the smallest sum.
    """
    best = [(0, [])]
    for end in range(1, len(parts) + 1):
        choices = []
        for start in range(end):
            height = height_of(parts[start:end])
            if height <= HIGHEST or end - start == 1:
                weight, groups = best[start]
                choices.append((weight + height + COST, groups + [(start, end)]))
        best.append(min(choices))
    return [parts[start:end] for start, end in best[-1][1]]


def axis_of(bands, top, y, least):
    """The axis of a tower whose highest point is drawn at y, and which is at least so high."""
    parts = parts_of(bands, top)
    whole = max(HIGHEST, least)
    groups, heights = [parts], [whole]
    if height_of(parts) > whole:
        groups = cut_up(parts)
        heights = [height_of(group) for group in groups]
    cuts = CUT * (len(groups) - 1)
    scale = max(1, (least - cuts) / sum(heights))
    bottom = y + scale * sum(heights) + cuts
    stretches = []
    for group, height in zip(groups, heights):
        stretches.append(Stretch(group[0][0], group[-1][1], bottom, bottom - scale * height))
        bottom = stretches[-1].top - CUT
    return Axis(stretches)


def ticks_of(stretch):
    """Both ends and, between them, round amounts with room for a label."""
    least = 30 * (stretch.high - stretch.low) / (stretch.bottom - stretch.top)
    step = next(size * 10 ** power for power in range(21) for size in (1, 2, 5) if size * 10 ** power >= least)
    multiples = range(stretch.low // step + 1, stretch.high // step + 1)
    clear = [step * times for times in multiples if stretch.top + 14 < stretch.y(step * times) < stretch.bottom - 14]
    return [stretch.low] + clear + [stretch.high]
