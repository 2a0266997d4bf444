"""The days to come on a copy: runs, and ends of tasks when they are booked to end."""
import collections
import dataclasses
import heapq
import math
import time

from .moments import INFINITY, clock, lasting, seconds
from .plan import FOREVER
from .sources import counted, grants_of


class Forecast:
    """Plays a copy on, and keeps the bars of what starts and of what the next run reserves."""

    def __init__(self, site, play, plan):
        self.site, self.play, self.plan = site, play, plan
        self.ends, self.bars, self.reserved, self.count, self.cost = [], [], {}, 0, 0.0
        self.interval = max(1, seconds(site.settings["schedule_interval"]))
        self.most = int(site.settings["max_pending_tasks_per_job"])
        waits = site.waits()
        self.wanted = sum(counted(wait.tasks) for wait in waits)
        self.further = collections.deque(self.further_moments(waits))
        for job, task, start, _, slots in site.running():
            serial, _ = site.started(job, task)
            self.due(max(site.end(job, start), plan.now + 1), start, serial, slots)

    def further_moments(self, waits):
        """Moments at which more may start, beside ends: `-a` of jobs, begin and end of advance reservations."""
        moments = {moment for bar in self.plan.bars if bar.kind == "booked" for moment in (bar.start, bar.end)}
        moments |= {self.site.kept.job(wait.job, "not_before", 0) for wait in waits}
        return sorted(moment for moment in moments if moment > self.plan.now)

    def due(self, end, start, serial, slots):
        """Keeps when a task ends, and the time that its slots will have taken."""
        if serial and end < FOREVER:
            heapq.heappush(self.ends, (end, serial, (end - start) * slots))

    def run(self, moment, kind):
        """Makes a run, keeps what it takes, and tells whether one at once would start more of a job."""
        starts, begun = collections.Counter(), time.monotonic()
        for line in self.play.lines("sched", moment=moment):
            word, *rest = line.split()
            if word == "start":
                starts[self.start(rest, moment, kind)] += 1
            elif kind == "next":
                self.reserve(rest)
        self.count += starts.total()
        self.cost = time.monotonic() - begun
        return self.most > 0 and max(starts.values(), default=0) >= self.most

    def start(self, words, moment, kind):
        """Keeps a task that a run starts, and tells its job."""
        serial, name, grants = int(words[0]), words[1], grants_of(words[-1])
        job, task = name.split(".")
        end = self.site.end(job, moment)
        self.due(end, moment, serial, sum(slots for _, slots in grants))
        self.bars += self.site.bars(job, task, grants, kind, moment, end)
        return job

    def reserve(self, words):
        """Keeps a task that a run reserves."""
        (job, task), start, grants = words[0].split("."), int(words[1]), grants_of(words[-1])
        bars = self.site.bars(job, task, grants, "reserve", start, self.site.end(job, start))
        self.reserved[self.site.label(job, task)] = bars

    def end_until(self, moment):
        """Ends the tasks that are due."""
        while self.ends and self.ends[0][0] <= moment:
            end, serial, taken = heapq.heappop(self.ends)
            self.play.lines(f"end {serial} 0 {min(taken, INFINITY)} 0 0", moment=end)

    def pass_further(self, moment):
        """Leaves out the further moments that are over."""
        while self.further and self.further[0] <= moment:
            self.further.popleft()

    def pause(self, moment, until, left):
        """The least time between two runs with which all runs until the end fit into the seconds that are left."""
        events = len(self.ends) + self.wanted - self.count + len(self.further)
        cost = self.cost / 2  # the less waits, the less a run takes
        return 0 if events * cost <= left else int((until - moment) * cost / max(left, 0.01))

    def coming(self, moment, again):
        """The first moment behind this one at which something may start; infinite where nothing comes."""
        moments = [moment + self.interval] if again else []
        moments += [self.further[0]] if self.further else []
        moments += [self.ends[0][0]] if self.ends else []
        return min(moments, default=math.inf)

    def go(self, until, patience):
        """Plays until a moment, or until all that waits has started, and puts what comes into the plan."""
        deadline, coarsest, moment = time.monotonic() + patience, 0, self.plan.now
        again = self.run(moment, "next")
        while self.count < self.wanted and (coming := self.coming(moment, again)) <= until:
            left = deadline - time.monotonic()
            if left <= 0:
                self.plan.notes.append(f"The forecast ends at {clock(moment)}: more takes longer than {patience} s.")
                break
            pause = self.pause(moment, until, left)
            coarsest = max(coarsest, pause)
            moment = min(max(coming, moment + pause), until)
            self.pass_further(moment)
            self.end_until(moment)
            again = self.run(moment, "later")
        if coarsest:
            apart = lasting(coarsest)
            self.plan.notes.append(f"Runs of the forecast are up to {apart} apart, so as not to take longer than {patience} s.")
        self.put_bars()

    def put_bars(self):
        """A task that was reserved and then starts in the forecast has the bars of its start, drawn as a reservation."""
        for bar in self.bars:
            kept = bar.kind == "later" and bar.task in self.reserved
            self.plan.bars.append(dataclasses.replace(bar, kind="reserve") if kept else bar)
        started = {bar.task for bar in self.bars}
        self.plan.bars += [bar for task, bars in self.reserved.items() if task not in started for bar in bars]
