"""When what waits begins, and why it doesn't start with the next run."""
import bisect
import collections

from .moments import clock
from .sources import counted, spans
from .trial import Trial

HOLDS = {"u": "its user", "o": "an operator", "s": "the system"}
# What jobs have in common that wait for the same cause, beside the queues that they ask for.
ALIKE = ("owner", "group", "project", "hard_resource_list", "parallel_environment")


def held(details):
    """Why a job is held, as `qstat -j` tells."""
    by = " and ".join(HOLDS.get(letter, letter) for letter in details.get("hold", "-") if letter != "-")
    behind = [details[name] for name in ("predecessors", "array_predecessors") if details.get(name, "NONE") != "NONE"]
    parts = [f"by {by}"] * bool(by) + [f"waits for {', '.join(behind)}"] * bool(behind)
    return "held: " + "; ".join(parts) if parts else "held"


def sent_into(site, advance):
    """Why a job waits that is sent into an advance reservation."""
    start, end = site.advances.get(advance, (0, 0))
    if end <= site.now:
        return f"reserved: its advance reservation {advance} is over"
    if start > site.now:
        return f"reserved: its advance reservation {advance} begins {clock(start)}"
    return f"no slot: advance reservation {advance} has none left for it"


def told(site, wait, eligible):
    """Why a job waits, where that takes no trial; nothing where it does."""
    if wait.state == "Eqw":
        return "in error, until qmod -cj"
    if wait.state == "hqw":
        return held(site.job(wait.job))
    if wait.job not in eligible:
        moment = site.kept.job(wait.job, "not_before", 0) if site.kept else 0
        return f"-a: not before {clock(moment)}" if moment > site.now else "-a: not yet"
    advance = site.advance(wait.job)
    return sent_into(site, advance) if advance else ""


def without_trial(site, wait, eligible):
    """Why the tasks of a line don't start with the next run, where that takes no trial; nothing where it does."""
    begun = sum(start == site.now for start in wait.starts)
    if begun == counted(wait.tasks):
        return "the next run starts it"
    why, most = told(site, wait, eligible), int(site.settings["max_pending_tasks_per_job"])
    return f"a run starts {most} tasks of a job at most" if not why and 0 < most <= begun else why


def kind_of(site, job):
    """What two jobs have in common that wait for the same cause."""
    return tuple(site.job(job).get(name, "") for name in ALIKE) + tuple(site.kept.queues(job))


def put_tried(site, play, waits, patience):
    """Puts in why jobs wait, by trials on a copy: one for each kind of jobs."""
    kinds = collections.defaultdict(list)
    for wait in waits:
        kinds[kind_of(site, wait.job)].append(wait)
    found = Trial(site, play, patience).reasons([alike[0].job for alike in kinds.values()])
    for wait, first in ((wait, alike[0]) for alike in kinds.values() for wait in alike):
        wait.why = found[first.job]


def put_seen(site, waits):
    """Puts in what a connection tells of why jobs wait."""
    free = sum(max(0, instance.slots - instance.used) for instance in site.instances.values())
    for wait in waits:
        wait.why = "no slot: fewer are free than it asks for" if free < wait.slots else "not told by a connection"


def starts_in(span, starts):
    """When the tasks of a range begin, by the starts of all tasks of its job in order."""
    first, behind = (bisect.bisect_left(starts, (edge,)) for edge in (span.start, span.stop))
    return [moment for task, moment in starts[first:behind] if task in span]


def put_starts(plan):
    """Puts in when waiting tasks begin."""
    found = collections.defaultdict(set)
    for bar in plan.bars:
        if bar.kind in ("next", "reserve", "later"):
            job, _, task = bar.task.partition(".")
            found[job].add((int(task or 1), bar.start))
    starts = {job: sorted(moments) for job, moments in found.items()}
    for wait in plan.waits:
        begun = starts.get(wait.job, [])
        wait.starts = sorted(moment for span in spans(wait.tasks) for moment in starts_in(span, begun))


def put_reasons(site, plan, play=None, patience=0):
    """Puts in why what waits doesn't start with the next run."""
    eligible = {line.split()[0] for line in site.asker.lines("qstat -pri")}
    for wait in plan.waits:
        wait.why = without_trial(site, wait, eligible)
    unknown = [wait for wait in plan.waits if not wait.why]
    if unknown and play:
        put_tried(site, play, unknown, patience)
    elif unknown:
        put_seen(site, unknown)
