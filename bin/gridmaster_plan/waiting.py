"""What waits, in lines."""
import collections

from .moments import clock
from .plan import FOREVER, Wait
from .sources import counted


def begins(wait, plan):
    """When the tasks of a line begin."""
    if not wait.starts:
        return "not in sight" if plan.played else "not told"
    first, last = wait.starts[0], wait.starts[-1]
    shown = clock(first) if first == last else f"{clock(first)} to {clock(last)}"
    missing = wait.jobs == 1 and counted(wait.tasks) - len(wait.starts)
    return shown + (f", {missing} not in sight" if missing else "")


def together(waits):
    """Lines of the jobs of one owner that wait for the same cause, as one line."""
    first = waits[0]
    jobs = list(dict.fromkeys(wait.job for wait in waits))
    if len(jobs) == 1:
        return waits
    shown = f"{jobs[0]} to {jobs[-1]}"
    starts = sorted(start for wait in waits for start in wait.starts)
    slots = min(wait.slots for wait in waits)
    return [Wait(shown, f"{len(jobs)} jobs", first.owner, first.state, slots, "-", starts, first.why, len(jobs))]


def lines_of_waits(plan, most):
    """What waits in so many lines at most, and how many jobs have none; those that begin first come first."""
    waits = sorted(plan.waits, key=lambda wait: (wait.starts[:1] or [FOREVER], int(wait.job)))
    if len(waits) > most:
        alike = collections.defaultdict(list)
        for wait in waits:
            alike[wait.why, wait.owner].append(wait)
        waits = [line for group in alike.values() for line in together(group)]
    return waits[:most], sum(wait.jobs for wait in waits[most:])
