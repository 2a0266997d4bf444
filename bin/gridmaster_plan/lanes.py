"""The bars of a row on lanes, one for each slot, none over another; what runs in an advance reservation lies on its lanes."""
import bisect
import collections
import itertools

from .layout import ORDER

# Neighbouring lanes that a bar has: the first one, how many, the bar, and whether it lies in an advance reservation.
Piece = collections.namedtuple("Piece", "first count bar inside")


class Track:
    """Bars that share no moment, in the order of time, so that those across another are found without a search of all."""

    def __init__(self):
        self.starts, self.ends, self.bars = [], [], []

    def across(self, bar):
        """Those that share a moment with a bar."""
        return self.bars[bisect.bisect_right(self.ends, bar.start) : bisect.bisect_left(self.starts, bar.end)]

    def add(self, bar):
        """Adds a bar."""
        at = bisect.bisect_left(self.starts, bar.start)
        self.starts.insert(at, bar.start)
        self.ends.insert(at, bar.end)
        self.bars.insert(at, bar)


class Lane:
    """One slot over time: its advance reservations, and its tasks, which may lie in these."""

    def __init__(self):
        self.booked, self.tasks = Track(), Track()

    def is_free(self, bar):
        """Whether nothing shares a moment with a bar."""
        return not self.booked.across(bar) and not self.tasks.across(bar)

    def takes(self, bar):
        """Whether a task may lie in the advance reservations of this lane: in its own, or in any where it has none."""
        met = self.booked.across(bar)
        if bar.kind == "booked" or not met or self.tasks.across(bar):
            return False
        return not bar.advance or {other.task for other in met} == {f"AR {bar.advance}"}

    def add(self, bar):
        """Adds a bar."""
        (self.booked if bar.kind == "booked" else self.tasks).add(bar)


def fitting(numbers, count):
    """So many of some lanes: neighbours where that can be."""
    for at in range(len(numbers) - count + 1 if count else 0):
        if numbers[at + count - 1] - numbers[at] == count - 1:
            return numbers[at : at + count]
    return numbers[:count]


def lanes_for(bar, lanes):
    """The numbers of the lanes that a bar gets, also of those that are still to be added."""
    free = [number for number, lane in enumerate(lanes) if lane.is_free(bar)]
    inside = [number for number, lane in enumerate(lanes) if lane.takes(bar)]
    best, rest = (inside, free) if bar.advance else (free, inside)
    numbers = fitting(best, bar.slots)
    numbers = numbers + fitting(rest, bar.slots - len(numbers))
    return sorted(numbers) + list(range(len(lanes), len(lanes) + bar.slots - len(numbers)))


def lay_bar(bar, lanes):
    """Lays a bar on lanes, and gives its pieces."""
    numbers = lanes_for(bar, lanes)
    lanes += [Lane() for _ in range(max(numbers, default=0) + 1 - len(lanes))]
    inside = not all(lanes[number].is_free(bar) for number in numbers)
    for number in numbers:
        lanes[number].add(bar)
    groups = itertools.groupby(enumerate(numbers), key=lambda pair: pair[1] - pair[0])
    neighbours = [[number for _, number in pairs] for _, pairs in groups]
    return [Piece(group[0], len(group), bar, inside) for group in neighbours]


def laid(row):
    """The pieces of a row's bars, and how many lanes they take."""
    lanes, pieces = [Lane() for _ in range(row.slots)], []
    for bar in sorted(row.bars, key=lambda bar: (bar.advance > 0, ORDER[bar.kind], bar.start, -bar.slots, bar.task)):
        pieces += lay_bar(bar, lanes)
    return pieces, max(1, len(lanes))
