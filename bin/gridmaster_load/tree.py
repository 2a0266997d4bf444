"""The share tree."""
from gridmaster_load.site import Object
from gridmaster_load.values import items, listed


def tree(site):
    """Tries the share tree."""
    site.report.begin("sharetree")
    nodes, order = tree_nodes(site)
    if nodes:
        site.put("stree", "", tree_lines(nodes, order), lambda *_: narrowed_tree(site, nodes, order))


def tree_nodes(site):
    """The nodes by number, and their numbers as the tree is walked; what can't be is taken out."""
    nodes = read_nodes(site.folder.lines("sharetree"))
    left, order, seen, claimed = [("0", "")] if "0" in nodes else [], [], set(), {"0"}
    while left:
        place, scope = left.pop()
        scope = walk_node(site, nodes, place, scope, seen, claimed)
        order.append(place)
        left += [(child, scope) for child in reversed(nodes[place]["childnodes"])]
    return nodes, order


def read_nodes(lines):
    """The nodes by number, as attributes and values."""
    nodes, node = {}, {}
    for line in lines:
        attribute, _, said = line.partition("=")
        node = nodes.setdefault(said.strip(), {}) if attribute.strip() == "id" else node
        node[attribute.strip()] = said.strip()
    return nodes


def walk_node(site, nodes, place, scope, seen, claimed):
    """Mends a node, whose children are those that no other one has; gives the scope of the names below it."""
    node = nodes[place]
    children = items(node.get("childnodes", "NONE"))
    if node.get("type") == "1" and node.get("name") not in site.there["prj"]:
        site.report.note("project node " + node.get("name", ""), "as a group, since there is no such project")
        node["type"] = "0"
    scope = place if node.get("type") == "1" else scope
    if node.get("type") != "1":
        node_name(site, node, scope, seen, bool(children))
    if node.get("name") == "default" and not children and not site.folder.own:
        site.report.note("leaf default", "one for all users without a leaf, where Grid Engine gives each his own")
    there = dict.fromkeys(site.present(children, nodes, "childnodes"))
    node["childnodes"] = [child for child in there if child not in claimed]
    claimed.update(there)
    return scope


def node_name(site, node, scope, seen, group):
    """A group whose name stands twice in its scope gets one that doesn't."""
    name, count = node.get("name", ""), 1
    while group and (scope, node.get("name", "")) in seen:
        count += 1
        node["name"] = "%s_%d" % (name, count)
    site.report.said("group node " + name, "group node " + node.get("name", ""))
    seen.add((scope, node.get("name", "")))


def tree_lines(nodes, order):
    """The nodes with these numbers, in the form of the share tree."""
    lines, there = [], set(order)
    for place in order:
        node = nodes[place]
        children = listed([child for child in node["childnodes"] if child in there])
        lines += ["id=" + place, "name=" + node.get("name", ""), "type=" + node.get("type", "0"),
                  "shares=" + node.get("shares", "0"), "childnodes=" + children]
    return lines


def taken_nodes(site, nodes, order):
    """How many of the first nodes are taken."""
    if is_taken(site, nodes, order):
        return len(order)
    low, high = 0, len(order)           # the first `low` nodes are taken, the first `high` not
    while high - low > 1:
        middle = (low + high) // 2
        low, high = (middle, high) if is_taken(site, nodes, order[:middle]) else (low, middle)
    return low


def is_taken(site, nodes, order):
    """Whether a tree of these nodes is taken."""
    return site.attempt(Object(None, "stree", "", tree_lines(nodes, order))) == 0


def narrowed_tree(site, nodes, order):
    """The tree without each node that is refused behind those before it, and without what is below it."""
    order = list(order)
    while order:
        taken = taken_nodes(site, nodes, order)
        if taken == len(order):
            break
        first = order[taken]
        gone = below(nodes, first)
        site.report.left("node %s %s" % (first, nodes[first].get("name", "")), "it is refused; so is what is below it")
        order = [place for place in order if place not in gone]
    return tree_lines(nodes, order)


def below(nodes, place):
    """A node and all that is below it."""
    found, left = set(), [place]
    while left:
        place = left.pop()
        found.add(place)
        left += [child for child in nodes[place]["childnodes"] if child not in found]
    return found
