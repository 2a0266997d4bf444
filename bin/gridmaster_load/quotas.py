"""Rule sets of resource quotas; a rule with a formula becomes one for each value that it has at the hosts."""
import fractions
import re

from gridmaster_load.clusters import refusal
from gridmaster_load.values import TOP, amount, items, value
from gridmaster_words.names import stands_for

UNBOUNDED = 10 ** 9      # slots that bound nobody


def quotas(site):
    """Tries the rule sets."""
    for name in site.folder.names("resource_quotas"):
        quota(site, name)


def quota(site, name):
    """Tries a rule set."""
    site.report.begin("resource_quotas/" + name)
    head, rules = {}, []
    for line in site.folder.lines("resource_quotas/" + name):
        attribute, _, said = line.replace("\t", " ").partition(" ")
        if attribute == "limit":
            rules += rule(site, said.strip())
        elif attribute not in ("{", "}"):
            head[attribute] = said.strip() or "NONE"
    said = head.get("description", "NONE")
    head["description"] = said[1:-1] if re.fullmatch(r'"[^"]+"', said) else said
    lines = ["{"] + ["%s %s" % pair for pair in head.items()] + rules + ["}"]
    if rules:
        site.put("rqs", name, lines, lambda *words: narrowed_rules(site, *words))
    else:
        site.report.drop("no rule of it is left")


def narrowed_rules(site, kind, name, lines):
    """A rule set without the lines that are refused when each stands alone beside the name."""
    kept = []
    for line in lines[1:-1]:
        if line.startswith("name "):
            kept.append(line)
            continue
        alone = ["{", "name " + name, line] + ["limit to slots=1"] * (not line.startswith("limit ")) + ["}"]
        code = site.alone(kind, name, alone)
        if code:
            site.report.note(line, refusal(code))
        else:
            kept.append(line)
    return ["{"] + kept + ["}"]


def rule(site, said):
    """A rule as the rules that mean the same, none where nothing matches it."""
    said = re.sub(r"\{.*?\}", lambda braces: re.sub(r"\s+", "", braces[0]), said)
    said = re.sub(r"\s*,\s*", ",", said)
    found = re.fullmatch(r"(.*?)\s*\bto\s+(\S+)", said)
    if not found:
        site.report.left("limit " + said, "it is no rule")
        return []
    words = found[1].split()
    filters = dict(zip(words[0::2], words[1::2]))
    for what in ("users", "hosts"):
        if what in filters and not cut_filter(site, filters, what):
            site.report.left("limit " + said, "it matches nothing")
            return []
    fixed, dynamic = limits(site, found[2])
    if dynamic:
        return rules_at_hosts(site, said, filters, fixed, dynamic)
    if not fixed:
        site.report.note("limit " + said, "kept without a bound, since no later rule counts where it matches")
    return [rule_line(site, filters, fixed)]


def rule_line(site, filters, limits):
    words = ["limit"] + ["%s %s" % pair for pair in filters.items()]
    return " ".join(words + ["to", ",".join(limits) or "slots=%d" % UNBOUNDED])


def cut_filter(site, filters, what):
    """Takes sets and groups that aren't there out of a filter. Whether anything can still match."""
    said = filters[what]
    names = site.there["u"] if what == "users" else {name[1:] for name in site.there["hgrp"]}
    kept, elements = [], [element for element in said.strip("{}").split(",") if element]
    for element in elements:
        bare = element.lstrip("!")
        if bare.startswith("@") and bare[1:] not in names:
            site.report.note("%s in %s" % (element, what), "cut, since there is none of that name")
        else:
            kept.append(element)
    if any(element[0] != "!" for element in elements) and not any(element[0] != "!" for element in kept):
        return False
    if kept:
        filters[what] = "{%s}" % ",".join(kept) if said.startswith("{") else ",".join(kept)
    else:
        del filters[what]
    return True


def limits(site, said):
    """The limits of a rule that are plain numbers, and pairs of a complex and a formula."""
    fixed, dynamic = [], []
    for pair in said.split(","):
        name, _, there = pair.partition("=")
        name = site.full.get(name, name)
        if name not in site.kinds:
            site.report.left(pair, "there is no such complex")
        elif name not in site.consumables:
            site.report.left(pair, "it is no consumable")
        elif "$" in there:
            dynamic.append((name, there))
        elif value(site.kinds[name], there) is None:
            site.report.left(pair, "it is no value of kind " + site.kinds[name])
        else:
            fixed.append("%s=%s" % (name, value(site.kinds[name], there)))
            site.report.said(pair, fixed[-1])
    return fixed, dynamic


def rules_at_hosts(site, said, filters, fixed, dynamic):
    """A rule with formulas as one for each value that they have at the hosts."""
    hosts = filtered_hosts(site, filters.get("hosts", ""))
    if not hosts or len(hosts) > 1 and not filters["hosts"].startswith("{"):
        site.report.note("limit " + said, "kept without its formula, which isn't for each host alone")
        return [rule_line(site, filters, fixed)]
    groups = hosts_by_bounds(site, hosts, dynamic)
    rules = []
    for values, there in groups.items():
        mine = dict(filters, hosts="{%s}" % ",".join(there))
        if "name" in mine and len(groups) > 1:
            mine["name"] += "_%d" % (len(rules) + 1)
        rules.append(rule_line(site, mine, fixed + ["%s=%d" % pair for pair in values if pair[1] is not None]))
    unknown = any(there is None for values in groups for _, there in values)
    for values, there in groups.items():
        words = ",".join("%s=%s" % (name, "?" if bound is None else bound) for name, bound in values)
        site.report.note("limit " + said, "worked out once, as %s at %s" % (words, " ".join(there)))
    if unknown:
        site.report.note("limit " + said, "without a bound where ? stands, since the host reported no such value")
    return rules


def hosts_by_bounds(site, hosts, dynamic):
    """The hosts by the values that formulas have there."""
    groups = {}
    for host in hosts:
        values = tuple((name, formula_at(site, host, text)) for name, text in dynamic)
        groups.setdefault(values, []).append(host)
    return groups


def filtered_hosts(site, said):
    """The hosts that a filter lets pass; none where there is no filter."""
    elements = [element for element in said.strip("{}").split(",") if element]
    plain = [element for element in elements if element[0] != "!"]
    without = [element[1:] for element in elements if element[0] == "!"]
    hosts = sorted(site.there["e"] - {"global"}) if elements else []
    return [host for host in hosts if (not plain or meets(site, host, plain)) and not meets(site, host, without)]


def meets(site, host, elements):
    """Whether a host meets one of the patterns and groups of a filter."""
    return any(host in site.hosts_of(element) if element[0] == "@" else stands_for(element, host)
               for element in elements)


def formula_at(site, host, text):
    """A formula of weights and $names at a host, at least 0; None where a name has no value there."""
    total = fractions.Fraction(0)
    for sign, term in re.findall(r"([+-]?)([^+-]+)", text):
        words = [word for word in term.split("*") if word]
        factors = [known_at(site, host, word[1:]) if word[0] == "$" else amount(word) for word in words]
        if not factors or None in factors:
            return None
        product = fractions.Fraction(1)
        for factor in factors:
            product *= factor
        total += -product if sign == "-" else product
    return min(max(int(total), 0), TOP)


def known_at(site, host, name):
    """What a host has configured or reported under a name, or None."""
    pairs = site.hosts.get(host, {})
    said = {}
    for attribute in ("load_values", "complex_values"):
        said.update(item.partition("=")[::2] for item in items(pairs.get(attribute, "NONE")))
    return amount(said.get(name, ""))
