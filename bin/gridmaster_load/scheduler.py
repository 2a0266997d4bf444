"""The settings of the scheduler."""
import re

from gridmaster_load.values import NUMBERS, items, listed, value

# Kinds of the scheduler's settings that aren't taken as they are written.
SETTINGS = {"schedule_interval": "TIME", "default_duration": "TIME", "maxujobs": "INT", "halftime": "INT",
            "max_reservation": "INT", "max_pending_tasks_per_job": "INT", "weight_tickets_functional": "INT",
            "weight_tickets_share": "INT"}

def scheduler(site):
    """Tries the settings."""
    site.report.begin("schedconf")
    pairs = site.known("sconf", site.folder.pairs("schedconf"))
    lines = []
    for attribute, said in pairs.items():
        words = setting(site, attribute, said)
        if words is not None:
            lines.append("%s %s" % (attribute, words))
    if lines:
        site.put("sconf", "", lines)


def setting(site, attribute, said):
    """A setting in the words of gridmaster, or None."""
    if attribute == "load_formula":
        return load_formula(site, said)
    words = said
    if attribute == "usage_weight_list":
        words = listed([word for word in items(said) if word.partition("=")[0] in ("cpu", "mem", "io")])
    elif attribute.startswith("weight_") or attribute in SETTINGS:
        words = value(SETTINGS.get(attribute, "DOUBLE"), said)
    if words is None:
        site.report.left("%s %s" % (attribute, said), "it is no value of kind " + SETTINGS.get(attribute, "DOUBLE"))
    elif items(words) != items(said):
        site.report.said("%s %s" % (attribute, said), "%s %s" % (attribute, words))
    return words


def load_formula(site, said):
    """The one name of a formula: its first with a positive weight."""
    for sign, term in re.findall(r"([+-]?)([^+-]+)", said.replace(" ", "")):
        names = [site.full[word] for word in term.split("*") if site.kinds.get(site.full.get(word)) in NUMBERS]
        if names and sign != "-" and len(names) == 1:
            if names[0] in site.consumables:
                site.report.note("load_formula " + said, "what is reported counts, not what is left of " + names[0])
            site.report.said("load_formula " + said, "load_formula " + names[0])
            return names[0]
    site.report.left("load_formula " + said, "it is one name of a number alone")
    return None
