"""Queues, with the access lists of their hosts as overrides."""
from gridmaster_load.counterparts import LISTS, SIZE_LIMITS, TIME_LIMITS
from gridmaster_load.values import cut_overrides, items, listed, value, with_overrides


def queues(site):
    """Tries the queues."""
    for name in site.folder.names("cqueues"):
        queue(site, name)


def queue(site, name):
    """Tries a queue."""
    site.report.begin("cqueues/" + name)
    pairs = site.folder.pairs("cqueues/" + name)
    kept = site.known("q", pairs)
    hosts = site.hosts_in(items(kept.pop("hostlist", "NONE")), "hostlist")
    kept.pop("qname", None)
    row = {attribute: overridden(site, attribute, said) for attribute, said in kept.items()}
    on = dict.fromkeys(host for word in hosts for host in site.hosts_of(word))
    for host in list(on) + ["global"]:
        restrict(site, row, host)
    close(site, row, pairs.get("qtype", "BATCH"))
    lines = ["%s %s" % (attribute, with_overrides(*said)) for attribute, said in row.items()]
    site.put("q", name, ["qname " + name, "hostlist " + listed(hosts)] + lines)


def overridden(site, attribute, said):
    """A value of a queue with its overrides."""
    plain, overrides = cut_overrides(said)
    there = [pair for pair in overrides if site.hosts_in([pair[0]], "an override of " + attribute)]
    return queue_value(site, attribute, plain), [(who, queue_value(site, attribute, words)) for who, words in there]


def queue_value(site, attribute, said):
    if attribute in ("complex_values", "load_thresholds"):
        return site.values_of(said, attribute == "load_thresholds")
    if attribute in LISTS or attribute == "pe_list":
        kind = {"pe_list": "p", "projects": "prj", "xprojects": "prj"}.get(attribute, "u")
        return listed(site.present(items(said), site.there[kind], attribute))
    kind = "TIME" if attribute in TIME_LIMITS else "MEMORY" if attribute in SIZE_LIMITS else "INT"
    words = value(kind, said)
    if words is None:
        site.report.left("%s %s" % (attribute, said), "it is no value of kind " + kind)
        return {"slots": "1", "seq_no": "0"}.get(attribute, "INFINITY")
    site.report.said("%s %s" % (attribute, said), "%s %s" % (attribute, words))
    return words


def at(site, said, host):
    """What a value with overrides is at a host."""
    plain, overrides = said
    own = [words for who, words in overrides if who == host]
    groups = [words for who, words in overrides if who.startswith("@") and host in site.hosts_of(who)]
    return (own + groups + [plain])[0]


def restrict(site, row, host):
    """The lists of a host as overrides of a queue on it, those of the host global as lists of the queue."""
    for attribute in LISTS:
        mine = items(site.hosts.get(host, {}).get(attribute, "NONE"))
        what = "%s %s of the host %s" % (attribute, listed(mine), host)
        mine = site.present(mine, site.there["prj" if "projects" in attribute else "u"], what)
        if not mine:
            continue
        plain, overrides = row.get(attribute, ("NONE", []))
        if host == "global":
            overrides = [(who, joined(site, attribute, said, mine, what)) for who, said in overrides]
            row[attribute] = joined(site, attribute, plain, mine, what), overrides
        else:
            both = joined(site, attribute, at(site, (plain, overrides), host), mine, what)
            row[attribute] = plain, [pair for pair in overrides if pair[0] != host] + [(host, both)]


def joined(site, attribute, said, mine, what):
    """The list that admits whom a queue's list and a host's admit; the queue's where no list says both."""
    there = items(said)
    if attribute.startswith("x"):
        both = there + [word for word in mine if word not in there]
    elif not there or set(mine) <= set(there):
        both = mine
    else:
        both = there
        if not set(there) <= set(mine):
            site.report.left(what, "the queue has its own there: " + said)
            return listed(both)
    site.report.note(what, "as %s of the queue there" % listed(both))
    return listed(both)


def close(site, row, qtype):
    """No slots where a queue takes no batch jobs, and isn't for parallel ones."""
    plain, overrides = cut_overrides(qtype)
    pes, slots = row.get("pe_list", ("NONE", [])), row.get("slots", ("1", []))
    if "BATCH" not in plain.upper():
        if not items(pes[0]):
            slots = "0", slots[1]
        site.report.note("qtype " + plain, "jobs without a PE start there too" if items(pes[0]) else "as slots 0")
    for who, said in overrides:
        if "BATCH" not in said.upper() and not items(at(site, pes, who)):
            slots = slots[0], [pair for pair in slots[1] if pair[0] != who] + [(who, "0")]
            site.report.note("qtype [%s=%s]" % (who, said), "as slots 0 there")
    row["slots"] = slots
