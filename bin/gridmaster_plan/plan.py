"""What a picture shows: instances, bars of slots over time, and what waits; and the fault that ends the program."""
import dataclasses

FOREVER = 2**63  # the end of what is booked without one


class Fault(Exception):
    """What ends the program: its status and what it tells."""

    def __init__(self, status, text):
        super().__init__(text)
        self.status = status


@dataclasses.dataclass
class Instance:
    """A queue instance as `qstat -f` shows it."""

    slots: int
    used: int
    state: str


@dataclasses.dataclass(frozen=True)
class Bar:
    """Slots at one instance, from a moment until another.

    kind: run; over, a task that runs longer than it is booked; booked, an advance reservation; next, what the next run
    would start; reserve, what it would reserve; later, what the forecast starts behind it.
    advance is the number of the advance reservation that the task is sent into, or 0.
    """

    instance: str
    slots: int
    start: int
    end: int
    kind: str
    task: str
    name: str
    owner: str
    advance: int = 0


@dataclasses.dataclass
class Wait:
    """Tasks of a job that wait in one state, and when they begin and why not now; or several jobs that are shown as one."""

    job: str
    name: str
    owner: str
    state: str
    slots: int
    tasks: str
    starts: list = dataclasses.field(default_factory=list)
    why: str = ""
    jobs: int = 1


@dataclasses.dataclass
class Plan:
    """All that a picture shows; played tells whether it is known when what waits begins."""

    now: int
    played: bool
    instances: dict = dataclasses.field(default_factory=dict)
    bars: list = dataclasses.field(default_factory=list)
    waits: list = dataclasses.field(default_factory=list)
    notes: list = dataclasses.field(default_factory=list)
