"""Managers and operators, and what has no counterpart."""
from gridmaster_load.clusters import refusal
from gridmaster_load.counterparts import ALONE, GLOBAL, OBJECTS_ALONE, usual_values
from gridmaster_load.values import items


def people(site):
    """Tries managers and operators."""
    add_people(site, "managers", "-am", site.managers)
    add_people(site, "operators", "-ao", site.operators)


def add_people(site, file, option, names):
    """Tries the names of a file, and keeps those that are taken."""
    for name in items(" ".join(site.folder.lines(file))):
        site.report.begin(file, name)
        code, _ = site.new.ask("qconf %s %s" % (option, name))
        if code in (0, 16):
            site.report.take()
            names.append(name)
        else:
            site.report.drop(refusal(code))


def rest(site):
    """What has no counterpart: objects, settings of the cluster and files of the cell."""
    for kind, name in [(kind, name) for kind in OBJECTS_ALONE for name in site.folder.names(kind)]:
        site.report.begin(kind + "/" + name)
        site.report.drop(OBJECTS_ALONE[kind])
    usual, files = usual_values(GLOBAL), ["configurations/" + name for name in site.folder.names("configurations")]
    for file, attribute, said in [(file, *pair) for file in files for pair in site.folder.pairs(file).items()]:
        if attribute in usual and said.lower() != usual[attribute][0]:
            site.report.beside.append("%s: %s %s: %s" % (file, attribute, said, usual[attribute][1]))
    for name, why in ALONE.items():
        if site.folder.lines(name):
            site.report.beside.append("%s: %s" % (name, why))
