"""The plan of a cluster: from a running gridmaster, from the files of a folder, or from a script."""
import os
import pathlib
import subprocess
import sys
import tempfile
import time

import gridmaster_files as files

from .forecast import Forecast
from .moments import WEEK
from .plan import Fault, Plan
from .reasons import put_reasons, put_starts
from .site import Site, put_bars
from .sources import Connection, Kept, Play, program


def plan_by_gq(port):
    """What a running gridmaster tells."""
    now = int(time.time())
    site, plan = Site(Connection(port), now), Plan(now, False)
    put_bars(site, plan)
    plan.waits = site.waits()
    put_reasons(site, plan)
    return plan


def copied(folder, workshop):
    """Copies the two files as they are at one moment."""
    areas = files.copies(folder)
    if not any(areas):
        raise Fault(4, f"neither spool.a nor spool.b is in {folder}")
    for name, data in zip(files.FILES, areas):
        (workshop / name).write_bytes(data)


def ran(words, folder, **settings):
    """Runs gridmaster in a folder."""
    done = subprocess.run([program("GRIDMASTER", "gridmaster"), *words], cwd=folder, capture_output=True, **settings)
    if done.returncode:
        raise Fault(done.returncode, f"gridmaster {' '.join(words)} ended with {done.returncode}")


def script_of(name):
    """A script from a file, or from standard input."""
    return sys.stdin.buffer.read() if name == "-" else pathlib.Path(name).read_bytes()


def moment_shown(last, asked, script):
    """The moment of a picture: as asked; of a script its last change; of files the clock, where they aren't old."""
    if asked is not None:
        return max(asked, last)
    clock_now = int(time.time())
    return clock_now if not script and last <= clock_now <= last + WEEK else last


def plan_by_copy(options, workshop):
    """What the files of a folder, or a script, come to."""
    if options.script:
        ran(["replay", "-batch", "1024"], workshop, input=script_of(options.script))
    else:
        copied(options.spool, workshop)
    ran(["status"], workshop)
    kept = Kept(files.copies(workshop))
    now = moment_shown(kept.last, options.now, bool(options.script))
    plan = Plan(now, True)
    with Play(workshop, now) as still, Play(workshop, now) as play:
        site = Site(still, now, kept)
        put_bars(site, plan)
        plan.waits = site.waits()
        Forecast(site, play, plan).go(now if options.next else now + int(options.hours * 3600), options.patience)
        put_starts(plan)
        with Play(workshop, now) as trial:
            put_reasons(site, plan, trial, options.patience)
    return plan


def quick_folder():
    """Where copies are played on: TMPDIR, else a folder in memory, where a sync costs nothing."""
    memory = "/dev/shm"
    return None if os.environ.get("TMPDIR") or not os.access(memory, os.W_OK | os.X_OK) else memory


def gathered(options):
    """The plan that the words ask for."""
    if not (options.spool or options.script):
        return plan_by_gq(options.port)
    with tempfile.TemporaryDirectory(prefix="gridmaster-plan-", dir=quick_folder()) as workshop:
        return plan_by_copy(options, pathlib.Path(workshop))
