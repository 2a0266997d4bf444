"""A cluster as it is now: its instances, the tasks that run as bars, its advance reservations, and what waits."""
import collections
import heapq

from .moments import INFINITY, seconds
from .plan import FOREVER, Bar, Instance, Wait
from .sources import attributes, grants_of, listed


def instances_of(asker):
    """The queue instances by their names."""
    rows = [line.split() for line in asker.lines("qstat -f")]
    numbers = {name: use.split("/") for name, use, _, _ in rows}
    return {name: Instance(int(numbers[name][1]), int(numbers[name][0]), state) for name, _, _, state in rows}


class Site:
    """A cluster as it is now, by requests, and by what is kept in the files where these are there."""

    def __init__(self, asker, now, kept=None):
        self.asker, self.now, self.kept = asker, now, kept
        self.details, self.advances = {}, {}
        self.instances = instances_of(asker)
        self.settings = attributes(asker.lines("qconf -ssconf"))
        self.rows = listed(asker)
        self.names = {row.job: (row.name, row.owner) for row in self.rows}
        self.arrays = {row.job for row in self.rows if row.tasks != "-"}

    def job(self, job):
        """What `qstat -j` tells of a job; nothing where it is gone meanwhile."""
        if job not in self.details:
            code, lines = self.asker.ask(f"qstat -j {job}")
            self.details[job] = {} if code else attributes(lines)
        return self.details[job]

    def advance(self, job):
        """The advance reservation that a job is sent into, or 0."""
        return self.kept.job(job, "advance", 0) if self.kept else 0

    def end(self, job, start):
        """Until when a task is booked that starts at a moment."""
        items = self.job(job).get("hard_resource_list", "NONE").split(",")
        asked = [seconds(item[5:]) for item in items if item[:5] in ("h_rt=", "s_rt=")]
        duration = max(1, min(asked, default=seconds(self.settings["default_duration"])))
        end = FOREVER if duration == INFINITY else start + duration
        _, over = self.advances.get(self.advance(job), (0, FOREVER))
        return min(end, over)

    def label(self, job, task):
        """How a task is called: without its number where the job is no array."""
        return f"{job}.{task}" if job in self.arrays else job

    def bars(self, job, task, grants, kind, start, end):
        """The bars of one task."""
        name, owner = self.names.get(job, ("?", "?"))
        label, advance = self.label(job, task), self.advance(job)
        return [Bar(instance, slots, start, end, kind, label, name, owner, advance) for instance, slots in grants]

    def booked(self):
        """The bars of the advance reservations, whose begins and ends are kept."""
        bars = []
        for line in self.asker.lines("qrstat"):
            number, name, owner, _, start, end, _ = line.split()
            self.advances[int(number)] = int(start), int(end)
            code, lines = self.asker.ask(f"qrstat -ar {number}")
            grants = [] if code else grants_of(",".join(lines[1:]))
            bars += [Bar(place, slots, int(start), int(end), "booked", f"AR {number}", name, owner) for place, slots in grants]
        return bars

    def running(self):
        """Each running task: job, task, start, instance, slots."""
        for row in self.rows:
            if row.runs:
                yield row.job, 1 if row.tasks == "-" else int(row.tasks), int(row.start), row.instance, int(row.slots)

    def started(self, job, task):
        """The serial number of a running task and its grants; 0 and none where it isn't kept."""
        return self.kept.started.get((int(job), int(task)), (0, [])) if self.kept else (0, [])

    def grants(self, job, task, instance, slots):
        """Where a running task has its slots: as it is kept, else all at the instance that is told."""
        _, grants = self.started(job, task)
        return grants if sum(count for _, count in grants) == slots else [(instance, slots)]

    def waits(self):
        """What waits, in the order of qstat."""
        return [
            Wait(row.job, row.name, row.owner, row.state, int(row.slots), row.tasks)
            for row in self.rows
            if row.state in ("qw", "hqw", "Eqw")
        ]


class Spare:
    """Slots in use that nothing else explains, by instance; the instance with the most is found without a search."""

    def __init__(self, counts):
        self.counts = counts
        self.places = {name: place for place, name in enumerate(counts)}
        self.heap = [(-count, self.places[name], name) for name, count in counts.items() if count > 0]
        heapq.heapify(self.heap)

    def take(self, name, most):
        """Takes so many slots of an instance at most, and tells how many they are."""
        taken = max(0, min(most, self.counts.get(name, 0)))
        if taken:
            self.counts[name] -= taken
            heapq.heappush(self.heap, (-self.counts[name], self.places[name], name))
        return taken

    def fullest(self):
        """The instance with the most slots to spare, or None; entries that are out of date go."""
        while self.heap and -self.heap[0][0] != self.counts[self.heap[0][2]]:
            heapq.heappop(self.heap)
        return self.heap[0][2] if self.heap and self.heap[0][0] < 0 else None

    def grants(self, first, slots):
        """Where a task may have its slots: at its first instance, then where most are spare, and the rest at the first."""
        grants = {first: self.take(first, slots)}
        missing = slots - grants[first]
        while missing and (name := self.fullest()):
            grants[name] = self.take(name, missing)
            missing -= grants[name]
        grants[first] += missing
        return [(name, count) for name, count in grants.items() if count]


def guessed(site, booked):
    """The grants of running tasks of several slots, where only the first instance of each is told."""
    counts = collections.Counter({name: instance.used for name, instance in site.instances.items()})
    counts.subtract(instance for _, _, _, instance, slots in site.running() if slots == 1)
    for bar in booked:
        counts[bar.instance] -= bar.slots if bar.start <= site.now < bar.end else 0
    spare = Spare(counts)
    wide = [(job, task, instance, slots) for job, task, _, instance, slots in site.running() if slots > 1]
    return {(job, task): spare.grants(instance, slots) for job, task, instance, slots in wide}


def put_bars(site, plan):
    """Puts what runs and what is booked into the plan."""
    plan.instances, plan.bars = site.instances, site.booked()
    guesses = {} if site.kept else guessed(site, plan.bars)
    for job, task, start, instance, slots in site.running():
        grants = guesses.get((job, task)) or site.grants(job, task, instance, slots)
        end = site.end(job, start)
        kind = "run" if end > plan.now else "over"
        plan.bars += site.bars(job, task, grants, kind, start, max(end, plan.now + 1))
    if guesses:
        plan.notes.append(f"Of {len(guesses)} tasks of several slots it is guessed where those beyond the first instance are.")
    gone = {bar.instance: Instance(0, 0, "gone") for bar in plan.bars if bar.instance not in plan.instances}
    plan.instances.update(gone)
