"""Translates a folder in the order in which its objects cite each other."""
from gridmaster_load.complexes import complexes
from gridmaster_load.hosts import execution, hostgroups
from gridmaster_load.queues import queues
from gridmaster_load.quotas import quotas
from gridmaster_load.rest import people, rest
from gridmaster_load.scheduler import scheduler
from gridmaster_load.simple import simple
from gridmaster_load.tree import tree


def translate(site):
    """Tries all that the folder has, and keeps what is taken."""
    complexes(site)
    execution(site)
    hostgroups(site)
    for kind in ("u", "prj", "user", "p"):
        simple(site, kind)
    queues(site)
    quotas(site)
    tree(site)
    scheduler(site)
    people(site)
    rest(site)
    site.print()
