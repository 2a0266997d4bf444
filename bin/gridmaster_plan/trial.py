"""Why a job waits, by a trial: what may be in its way is taken away on a copy step by step, until it starts."""
import re
import time

from .sources import attributes, listed

ACCESS = ("user_lists", "xuser_lists", "projects", "xprojects")
TAKEN = "no slot: what it asks for is taken"
TOO_MUCH = "no slot: nowhere is what it asks for"
TARGETS = 200  # jobs that one request names
# Each step takes a reason away by a method of a trial: first those that the rule sets go behind, then those behind them.
BEFORE_QUOTAS = (
    ("reserved: it would come in the way of a reservation", "without_reservations"),
    ("reserved: advance reservations take its slots", "without_advances"),
    ("quota: as many tasks of its owner run as maxujobs allows", "without_maxujobs"),
)
BEHIND_QUOTAS = (
    ("load: a threshold is reached", "without_thresholds"),
    (TAKEN, "without_running"),
    ("access: lists of users or projects keep it out", "without_access"),
)


def rewritten(play, kind, name, **values):
    """The request that gives attributes of a queue (`q`) or parallel environment (`p`) other values."""
    body = attributes(play.lines(f"qconf -s{kind} {name}"))
    body.update({attribute: value for attribute, value in values.items() if attribute in body})
    return "\n".join([f"qconf -M{kind}"] + [f"{attribute} {value}" for attribute, value in body.items()])


def environments(play, queues):
    """The parallel environments that queues cite."""
    lists = [line for queue in queues for line in play.lines(f"qconf -sq {queue}") if line.startswith("pe_list ")]
    cited = sorted({word for line in lists for word in re.findall(r"[\w.+-]+", re.sub(r"\[[^=\]]*=", " ", line))})
    return [name for name in cited if play.ask(f"qconf -sp {name}")[0] == 0]


def joined(command, targets):
    """Requests that name targets, so many in each."""
    return [f"{command} {' '.join(targets[at : at + TARGETS])}" for at in range(0, len(targets), TARGETS)]


def matches(pattern, name):
    """Whether a pattern stands for a name: `*`, `?` and `[set]` alone mean something."""
    parts = re.split(r"(\*|\?|\[[^\]]*\])", pattern)
    forms = {"*": ".*", "?": "."}
    written = "".join(
        forms.get(part) or ("[" + re.sub(r"([\\^\[&|~])", r"\\\1", part[1:-1]) + "]" if at % 2 else re.escape(part))
        for at, part in enumerate(parts)
    )
    return re.fullmatch(written, name) is not None


class Trial:
    """A copy behind the next run where all that waits is held but some jobs, which try in runs of their own.

    What may be in the way is taken away step by step: what makes a job start at last is why it waits. What started goes
    before others try. Where a run starts nothing each of the jobs would start nothing alone either.
    """

    def __init__(self, site, play, patience):
        self.site, self.play, self.queues = site, play, sorted({name.split("@")[0] for name in site.instances})
        self.deadline = time.monotonic() + patience
        play.lines("sched", moment=site.now)
        self.request(joined("qhold -h o", self.waiting()))

    def request(self, requests):
        """Makes requests that have to be accepted."""
        for request in requests:
            self.play.lines(request)

    def waiting(self):
        """The jobs that wait behind the next run."""
        return list(dict.fromkeys(row.job for row in listed(self.play) if not row.runs))

    def begun(self):
        """The jobs that a run starts; they are gone then."""
        words = [line.split() for line in self.play.lines("sched")]
        jobs = {row[2].split(".")[0] for row in words if row[0] == "start"}
        self.request(joined("qdel -f", sorted(jobs)))
        return jobs

    def started(self, jobs):
        """Those of some jobs that start."""
        found = set()
        while jobs - found and time.monotonic() < self.deadline and (begun := self.begun()):
            found |= begun
        return found

    def without_advances(self):
        """Advance reservations go, and the jobs in them."""
        live = {row.job for row in listed(self.play)}
        inside = sorted(job for job in live if self.site.advance(job))
        numbers = [line.split()[0] for line in self.play.lines("qrstat")]
        return joined("qdel -f", inside) + joined("qrdel", numbers)

    def without_setting(self, name):
        """The scheduler's settings with 0 for one of them."""
        body = self.play.lines("qconf -ssconf")
        return ["\n".join(["qconf -Msconf"] + [f"{name} 0" if line.split()[0] == name else line for line in body])]

    def without_reservations(self):
        """No job is reserved."""
        return self.without_setting("max_reservation")

    def without_maxujobs(self):
        """Owners have as many tasks as they like."""
        return self.without_setting("maxujobs")

    def without_thresholds(self):
        """No load closes a queue."""
        return [rewritten(self.play, "q", queue, load_thresholds="NONE") for queue in self.queues]

    def without_running(self):
        """What runs goes."""
        rows = [row for row in listed(self.play) if row.runs]
        return joined("qdel -f", [row.job if row.tasks == "-" else f"{row.job}.{row.tasks}" for row in rows])

    def without_access(self):
        """Queues and parallel environments are open to everybody."""
        none = dict.fromkeys(ACCESS, "NONE")
        queues = [rewritten(self.play, "q", queue, **none) for queue in self.queues]
        return queues + [rewritten(self.play, "p", name, **none) for name in environments(self.play, self.queues)]

    def steps(self):
        """Each reason, and the requests that take it away; these are made up when the steps before were taken."""
        yield from ((why, getattr(self, method)()) for why, method in BEFORE_QUOTAS)
        yield from ((f"quota: rule set {name}", [f"qconf -drqs {name}"]) for name in sorted(self.site.kept.rule_sets))
        yield from ((why, getattr(self, method)()) for why, method in BEHIND_QUOTAS)

    def reasons(self, jobs):
        """Why each of these jobs waits."""
        found, left = {}, set(jobs)
        self.request(joined("qrls -h o", sorted(left)))
        for why, requests in self.steps():
            self.request(requests)
            begun = self.started(left)
            left -= begun
            found.update(dict.fromkeys(begun, why))
        return found | self.unplaced(left)

    def unplaced(self, jobs):
        """Why jobs don't even start in an empty cluster that is open to them: for their `-q`, or for what they ask."""
        if time.monotonic() >= self.deadline:
            return dict.fromkeys(jobs, "not examined")
        asked = {job: self.site.kept.queues(job) for job in jobs}
        choosy = {job for job in jobs if asked[job]}
        self.request(joined("qalter -q *", sorted(choosy)))
        begun = self.started(choosy)
        return {job: self.misplaced(asked[job]) if job in begun else TOO_MUCH for job in jobs}

    def misplaced(self, asked):
        """What is wrong with a list of queues."""
        names, written = [element.split("@")[0] for element in asked], ",".join(asked)
        if any(matches(name, queue) for name in names for queue in self.queues):
            return f"no slot: nowhere in -q {written} is what it asks for"
        return f"no such queue: -q {written}"
