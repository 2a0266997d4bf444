"""Execution hosts with what they reported for good, and host groups."""
import gridmaster_files as files
from gridmaster_load.clusters import refusal
from gridmaster_load.values import items, listed, value


def execution(site):
    for name, pairs in site.hosts.items():
        site.report.begin("execution/" + name)
        kept = site.known("e", pairs)
        load = lasting_load(site, name, pairs)
        values = site.values_of(kept.get("complex_values", "NONE"))
        if site.put("e", name, ["hostname " + name, "complex_values " + values]) and load:
            report_load(site, load)


def report_load(site, load):
    """Tries the report of a host, and keeps it for bringing over."""
    code, _ = site.new.ask(load)
    if code:
        site.report.note("load_values", refusal(code))
    else:
        site.report.note("load_values", "reported once by `load`: " + load.split(None, 2)[2])
        site.objects[-1].load = load


def lasting_load(site, name, pairs):
    """The request that reports what a host has for good, or None."""
    words = []
    for item in items(pairs.get("load_values", "NONE")):
        attribute, _, said = item.partition("=")
        lasting = attribute in files.LASTING_LOADS and attribute in site.kinds
        there = value(site.kinds[attribute], said) if lasting else None
        if there:
            words.append("%s=%s" % (attribute, there))
    if not words or name == "global":
        return None
    return "load %s %s" % (name, " ".join(words))


def hostgroups(site):
    """Tries the groups, each behind those in it."""
    site.members = {name: items(site.folder.pairs("hostgroups/" + name).get("hostlist", "NONE"))
                    for name in site.folder.names("hostgroups")}
    left = set(site.members)
    while left:
        ready = sorted(name for name in left if left.isdisjoint(site.members[name])) or sorted(left)[:1]
        for name in ready:
            hostgroup(site, name)
        left -= set(ready)


def hostgroup(site, name):
    """Tries a group without members that aren't there."""
    site.report.begin("hostgroups/" + name)
    kept = site.known("hgrp", site.folder.pairs("hostgroups/" + name))
    members = site.hosts_in(items(kept.get("hostlist", "NONE")), "hostlist")
    site.group_hosts[name] = dict.fromkeys(host for member in members for host in site.hosts_of(member))
    site.put("hgrp", name, ["group_name " + name, "hostlist " + listed(members)])
