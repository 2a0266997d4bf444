"""User sets, projects, users and parallel environments."""
from gridmaster_load.counterparts import KINDS
from gridmaster_load.values import is_name, items, listed, value


def simple(site, kind):
    """Tries the objects of a kind."""
    folder, _, key = KINDS[kind]
    for name in site.folder.names(folder):
        site.report.begin(folder + "/" + name)
        pairs = site.folder.pairs("%s/%s" % (folder, name))
        kept = site.known(kind, pairs)
        if kind == "u":
            department(site, name, pairs)
        kept.pop(key, None)
        lines = ["%s %s" % (attribute, simple_value(site, attribute, said)) for attribute, said in kept.items()]
        site.put(kind, name, ["%s %s" % (key, name)] + lines)


def simple_value(site, attribute, said):
    if attribute in ("acl", "xacl", "user_lists", "xuser_lists"):
        return listed(site.present(items(said), site.there["u"], attribute))
    if attribute == "entries":
        odd = [word for word in items(said) if not is_name(word[word.startswith("@"):])]
        for word in odd:
            site.report.left(word, "it is no name")
        return listed([word for word in items(said) if word not in odd])
    if attribute in ("slots", "oticket", "fshare"):
        words = value("INT", said) or said
        site.report.said("%s %s" % (attribute, said), "%s %s" % (attribute, words))
        return words
    return said


def department(site, name, pairs):
    """What a user set means beside its entries."""
    if "DEPT" in pairs.get("type", "") and name != "defaultdepartment":
        site.report.left("type " + pairs["type"], "there are no departments")
    if name in ("arusers", "deadlineusers") and items(pairs.get("entries", "NONE")):
        site.report.note("entries", "everybody may use " + {"arusers": "qrsub", "deadlineusers": "-dl"}[name])
