"""Where a plan comes from: a copy of the files that gridmaster replay plays on, a running gridmaster asked through gq, and what
the files tell that no request does.
"""
import collections
import contextlib
import grp
import os
import pathlib
import pwd
import shutil
import subprocess
import tempfile

import gridmaster_files as files

from .plan import Fault

# What a cluster has behind what is configured, up to its jobs, in the words of docs/FORMAT.md.
UP_TO_JOBS = ", shares {u32: ShareNode}, sched Sched, managers [text], operators [text], jobs {u32: Job}"


def program(variable, name):
    """The path of a program that has to be there."""
    found = files.program(variable, name)
    if not found:
        raise Fault(8, f"there is no program {name}: {variable} says where it is")
    return os.path.abspath(found)


def cluster_of(form, snapshot):
    """The cluster of a snapshot, up to its jobs."""
    reader = files.Reader(form)
    reader.rows["Known"] = reader.rows["Configured"] + UP_TO_JOBS
    reader.data = snapshot
    return reader.of("Known")(0)[0]


class Kept:
    """Read from the files: where tasks run, what jobs ask besides `-l` and `-pe`, names of rule sets, the last moment."""

    def __init__(self, areas):
        self.last, self.jobs, self.started, self.rule_sets = 0, {}, {}, set()
        form, snapshot, entries = files.entries(areas)
        if snapshot:
            self.begin(cluster_of(form, snapshot))
        for entry in entries:
            self.last = entry["moment"]
            self.change(*entry["change"])

    def begin(self, cluster):
        """Takes over a snapshot."""
        self.last, self.jobs, self.rule_sets = cluster["last"], cluster["jobs"], set(cluster["quotas"])
        for job, row in self.jobs.items():
            self.started.update({(job, task): placed(running) for task, running in row["running"].items()})

    def change(self, kind, *what):
        """Takes over a change."""
        if kind == "Submit":
            self.jobs[what[0]["number"]] = what[0]
        elif kind == "Alter":
            self.alter(what[0])
        elif kind == "Put" and what[0][0] == "Quota":
            self.rule_sets.add(what[0][1])
        elif kind == "Drop" and what[0]["kind"][0] == "Quota":
            self.rule_sets.discard(what[0]["name"])
        elif kind == "Run":
            self.started.update({(start["task"]["job"], start["task"]["task"]): placed(start) for start in what[0]})

    def alter(self, patches):
        """Takes over what `qalter` gives jobs."""
        for job, patch in patches:
            given = {name: patch[name] for name in ("request", "not_before") if patch[name] is not None}
            self.jobs.get(job, {}).update(given)

    def job(self, number, name, default):
        """A field of a job, by its number in digits."""
        return self.jobs.get(int(number), {}).get(name, default)

    def queues(self, job):
        """The queues that a job asks for by `-q`."""
        return self.job(job, "request", {}).get("queues", [])


def placed(started):
    """The serial number of a task that was started, and its instances with their slots."""
    return started["serial"], [("{queue}@{host}".format(**grant["at"]), grant["slots"]) for grant in started["grants"]]


def refused(request, lines):
    """The fault of a request that has to be accepted."""
    return Fault(1, f"`{request.splitlines()[0]}` was refused: {' '.join(lines)}")


class Asker:
    """What a cluster is asked by; `ask` gives code and lines."""

    def lines(self, request, **settings):
        """The lines of a reply that has to accept."""
        code, lines = self.ask(request, **settings)
        if code:
            raise refused(request, lines)
        return lines


class Play(Asker):
    """`gridmaster replay` over a copy of the files, by one request after the other.

    A request is answered once the next header began. So an empty header, which is refused, goes behind each one, and its
    refusal is read before the next reply.
    """

    def __init__(self, workshop, moment):
        self.workshop, self.moment, self.manager, self.asked = workshop, moment, "root", False

    def __enter__(self):
        self.folder = pathlib.Path(tempfile.mkdtemp(dir=self.workshop))
        for name in files.FILES:
            shutil.copyfile(self.workshop / name, self.folder / name)
        words = [program("GRIDMASTER", "gridmaster"), "replay"]
        self.process = subprocess.Popen(words, cwd=self.folder, stdin=subprocess.PIPE, stdout=subprocess.PIPE)
        try:
            self.manager = self.lines("qconf -sm")[0]
        except BaseException:
            self.__exit__()  # else the process and its folder would stay
            raise
        return self

    def __exit__(self, *_):
        with contextlib.suppress(BrokenPipeError):
            self.process.stdin.close()
        self.process.stdout.close()
        self.process.wait()
        shutil.rmtree(self.folder)

    def reply(self):
        """Reads one reply."""
        head = self.process.stdout.readline().split()
        if len(head) != 2:
            status = self.process.wait()
            raise Fault(status or 1, f"gridmaster replay ended with {status}")
        return int(head[0]), [self.process.stdout.readline().decode("latin-1").rstrip("\n") for _ in range(int(head[1]))]

    def ask(self, request, moment=None):
        """Asks at a moment, else at that of the request before."""
        self.moment = self.moment if moment is None else moment
        with contextlib.suppress(BrokenPipeError):  # the reply that is missing then tells more
            self.process.stdin.write(f"@{self.moment} {self.manager} staff\n{request}\n@\n".encode("latin-1"))
            self.process.stdin.flush()
        if self.asked:
            self.reply()
        self.asked = True
        return self.reply()


class Connection(Asker):
    """A running gridmaster, asked through gq."""

    def __init__(self, port):
        try:
            user = os.environ.get("GRIDMASTER_USER") or pwd.getpwuid(os.getuid()).pw_name
            group = os.environ.get("GRIDMASTER_GROUP") or grp.getgrgid(os.getgid()).gr_name
        except KeyError as error:
            raise Fault(2, f"{error.args[0]}: GRIDMASTER_USER and GRIDMASTER_GROUP say who asks") from None
        self.port, self.words = port, [program("GQ", "gq"), str(port), user, group]

    def ask(self, request):
        """Asks by a connection of its own."""
        done = subprocess.run(self.words, input=request.encode("latin-1"), capture_output=True)
        if done.returncode not in (0, 1) or not done.stdout:
            raise Fault(done.returncode or 9, f"no answer from a gridmaster at port {self.port} of this machine")
        head, *lines = done.stdout.decode("latin-1").split("\n")[:-1]
        return int(head.split()[0]), lines


class Listed(collections.namedtuple("Listed", "job name owner state start instance slots tasks")):
    """A line of `qstat`."""

    @property
    def runs(self):
        """Whether it is of a task that runs, also where it is being deleted."""
        return self.state in ("r", "dr")


def listed(asker):
    """The lines of `qstat`."""
    return [Listed(*line.split()) for line in asker.lines("qstat")]


def attributes(lines):
    """Lines of a name and a value, as a dictionary."""
    return dict(line.split(None, 1) for line in lines)


def grants_of(value):
    """Instances with their slots."""
    return [(instance, int(slots)) for instance, slots in (grant.rsplit("=", 1) for grant in value.split(","))]


def spans(tasks):
    """The ranges of a printed set of tasks; that of a job that is no array is the task 1."""
    for span in ("1" if tasks == "-" else tasks).split(","):
        ends, _, step = span.partition(":")
        first, _, last = ends.partition("-")
        yield range(int(first), int(last or first) + 1, int(step or 1))


def counted(tasks):
    """How many tasks a printed set has."""
    return sum(len(span) for span in spans(tasks))
