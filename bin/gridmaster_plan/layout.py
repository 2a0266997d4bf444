"""How a plan is laid out: its rows, from when to when it goes, whose bars are coloured, and sums of bars over time."""
import bisect
import collections
import dataclasses
import itertools
import re

from .moments import clock
from .plan import FOREVER

ORDER = {"booked": 0, "run": 1, "over": 1, "next": 2, "reserve": 3, "later": 4}
WORDS = {
    "run": "runs",
    "over": "runs longer than booked",
    "next": "the next run starts it",
    "reserve": "the next run reserves it",
    "later": "forecast",
    "booked": "advance reservation",
}


@dataclasses.dataclass
class Row:
    """One instance, or neighbours in one queue together."""

    names: list
    slots: int
    used: int
    state: str
    bars: list

    def label(self, between):
        """How it is called: of several the first and the last."""
        first, last = self.names[0], self.names[-1]
        return first if first == last else f"{first}{between}{last.split('@')[1]}"


def natural(name):
    """The order of instances: by queue, then by host with its numbers as numbers."""
    queue, _, host = name.partition("@")
    return queue, [(int(part), "") if part.isdigit() else (-1, part) for part in re.split(r"(\d+)", host)], name


def bundles(names, most):
    """Instances as so many rows at most, where that can be: neighbours of one queue together, as few as will do."""
    grouped = itertools.groupby(sorted(names, key=natural), key=lambda name: name.split("@")[0])
    queues = [list(alike) for _, alike in grouped]
    longest = max(map(len, queues), default=1)
    sizes = range(1, longest)  # a row of the longest queue holds any other queue as well
    size = 1 + bisect.bisect_left(sizes, True, key=lambda size: sum(-(-len(alike) // size) for alike in queues) <= most)
    return [alike[at : at + size] for alike in queues for at in range(0, len(alike), size)]


def row_of(names, instances, bars):
    """The row of some instances, with their bars."""
    members = [instances[name] for name in names]
    states = ",".join(sorted({member.state for member in members} - {"-"}))
    slots, used = sum(member.slots for member in members), sum(member.used for member in members)
    return Row(names, slots, used, states, [bar for name in names for bar in bars[name]])


def rows_of(plan, most, low, high):
    """The rows of a picture from a moment to another."""
    bars = collections.defaultdict(list)
    for bar in plan.bars:
        if bar.start < high and bar.end > low:
            bars[bar.instance].append(bar)
    return [row_of(names, plan.instances, bars) for names in bundles(plan.instances, most)]


def changes_of(bars, low, high):
    """Where bars begin (1) and end (-1) from a moment to another, by moments."""
    changes = collections.defaultdict(list)
    for bar in bars:
        changes[max(low, bar.start)].append((bar, 1))
        changes[min(high, bar.end)].append((bar, -1))
    return changes


def layers(bars, low, high):
    """Bars summed up: pieces of time, each with the slots of each kind and owner.

    What runs in an advance reservation is left out, since its slots are those of the reservation.
    """
    changes = changes_of([bar for bar in bars if not bar.advance], low, high)
    moments = sorted({low, high} | {moment for moment in changes if low < moment < high})
    sums = collections.Counter()
    for start, end in itertools.pairwise(moments):
        for bar, sign in changes[start]:
            sums[ORDER[bar.kind], bar.kind, bar.owner] += sign * bar.slots
        sums = +sums  # what is over would be sorted again at each moment
        yield start, end, [(kind, owner, slots) for (_, kind, owner), slots in sorted(sums.items())]


def edges(plan, hours):
    """From when to when a picture goes."""
    inner = [bar for bar in plan.bars if bar.start <= plan.now + hours * 3600]
    ends = [bar.end for bar in inner if bar.end < FOREVER] + [bar.start for bar in inner]
    high = max(min(max(ends, default=0), plan.now + int(hours * 3600)), plan.now + 60)
    if high == plan.now + 60 and any(bar.end >= FOREVER for bar in inner):
        high = plan.now + 3600
    low = min([bar.start for bar in plan.bars if bar.kind in ("run", "over")] + [plan.now])
    low = max(low, plan.now - (high - plan.now) // 3 - 60)
    margin = (high - low) // 60
    return max(0, low - margin), high + max(1, margin)


def heading(plan):
    """What a picture is of."""
    slots = sum(instance.slots for instance in plan.instances.values())
    used = sum(instance.used for instance in plan.instances.values())
    tasks = len({bar.task for bar in plan.bars if bar.kind in ("run", "over")})
    waits = len({wait.job for wait in plan.waits})
    where = f"{used} of {slots} slots in {len(plan.instances)} instances"
    return f"{where} are booked at {clock(plan.now)}: {tasks} tasks run, {waits} jobs wait"


def owners_shown(plan, low, high, most):
    """The owners that get a colour of their own, those of most slots over time, in alphabetical order; and how many there are."""
    taken = collections.Counter()
    for bar in plan.bars:
        taken[bar.owner] += bar.slots * max(0, min(bar.end, high) - max(bar.start, low))
    return sorted(owner for owner, _ in sorted(taken.items(), key=lambda item: (-item[1], item[0]))[:most]), len(taken)
