"""What is known of a site while it is translated, and how its objects are tried and narrowed on a new cluster."""
import re

from gridmaster_load.clusters import AT_ONCE, refusal
from gridmaster_load.counterparts import IDLE, KINDS, KNOWN, usual_values
from gridmaster_load.values import NUMBERS, items, listed, shortened, value


class Object:
    """An object to bring over: its kind and name, its body, and what a new cluster prints of it."""

    def __init__(self, place, kind, name, lines):
        self.place, self.kind, self.name, self.lines, self.printed, self.load = place, kind, name, lines, [], None

    def put(self, option):
        return "\n".join(["qconf %s%s" % (option, self.kind)] + [shortened(line) for line in self.lines])

    def show(self):
        return "qconf -s%s %s" % (self.kind, self.name) if self.name else "qconf -s" + self.kind


class Site:
    """What a folder came to so far: objects that a new cluster took, rows of complexes, and the names that are there."""

    def __init__(self, folder, report, new):
        self.folder, self.report, self.new, self.objects = folder, report, new, []
        self.opening = {text: self.new.ask(text)[1] for text in ("qconf -sq all.q", "qconf -se local")}
        self.rows, self.kinds, self.consumables, self.full = [], {}, set(), {}
        self.there = {kind: set() for kind in KINDS}
        self.hosts = {name: folder.pairs("execution/" + name) for name in folder.names("execution")}
        self.members, self.group_hosts = {}, {}
        self.managers, self.operators = [], []

    def attempt(self, thing):
        """Puts an object into the new cluster, over one that is there."""
        if thing.kind == "sconf":
            return self.new.ask(thing.put("-M"))[0]
        code, _ = self.new.ask(thing.put("-A"))
        return self.new.ask(thing.put("-M"))[0] if code == 16 else code

    def alone(self, kind, name, lines):
        """The code of a small object, which goes again where it wasn't there before."""
        thing = Object(None, kind, name, lines)
        added = self.new.ask(thing.put("-A"))[0] if name else 16
        if added == 0:
            self.new.ask("qconf -d%s %s" % (KINDS[kind][1], name))
        return self.new.ask(thing.put("-M"))[0] if added == 16 else added

    def narrowed(self, kind, name, lines):
        """The lines without those that are refused when each stands alone beside the name."""
        head = lines[:1] if name else []
        kept = list(head)
        for line in lines[len(head):]:
            code = self.alone(kind, name, head + [line])
            if code:
                self.report.note(line, refusal(code))
            else:
                kept.append(line)
        return kept

    def put(self, kind, name, lines, narrow=None):
        """Tries an object, without the lines that are refused, and keeps it for bringing over. Whether it was taken."""
        if name and not re.fullmatch("[!-~]+", name):       # of a file; with a line feed it would be more lines of a body
            self.report.drop(refusal(11))
            return False
        thing = Object(self.report.now, kind, name, lines)
        code = self.attempt(thing)
        if code:
            thing.lines = (narrow or self.narrowed)(kind, name, lines)
            code = self.attempt(thing) if thing.lines != lines else code
        if code:
            self.report.drop(refusal(code))
            return False
        self.report.take()
        self.objects.append(thing)
        if kind in self.there:
            self.there[kind].add(name)
        return True

    def print(self):
        """What the new cluster prints of each object, once all are there."""
        for first in range(0, len(self.objects), AT_ONCE):
            things = self.objects[first:first + AT_ONCE]
            for thing, (_, lines) in zip(things, self.new.ask_all([thing.show() for thing in things])):
                thing.printed = lines
        table = {line.split()[0]: line for line in self.new.ask("qconf -sc")[1]}
        self.rows = [(place, row, table[row.split()[0]]) for place, row in self.rows]

    def known(self, kind, pairs):
        """The pairs of attributes that gridmaster has; of the others those are told that aren't at their usual value."""
        usual, kept = usual_values(IDLE.get(kind, "")), {}
        for attribute, said in pairs.items():
            if attribute in KNOWN[kind].split():
                kept[attribute] = said
            elif attribute not in usual:
                self.report.left("%s %s" % (attribute, said), "there is no such attribute")
            elif usual[attribute][0] != "*" and not self.is_usual(said, usual[attribute][0]):
                self.report.left("%s %s" % (attribute, said), usual[attribute][1])
        return kept

    def is_usual(self, said, values):
        return said.upper() in ("NONE",) + tuple(values.upper().split(","))

    def present(self, words, names, what):
        """The words that are names of objects there."""
        for word in words:
            if word not in names:
                self.report.left("%s in %s" % (word, what), "there is none of that name")
        return [word for word in words if word in names]

    def values_of(self, text, thresholds=False):
        """A list name=value, with each value in the words of gridmaster, and without what it can't have."""
        kept = []
        for item in items(text):
            said, _, there = item.partition("=")
            name = self.full.get(said, said)
            kind = self.kinds.get(name)
            words = value(kind, there) if kind else None
            if not kind:
                gone = ("centry", name) in self.report.gone
                self.report.left(item, "the row of its complex was" if gone else "there is no such complex")
            elif thresholds and kind not in NUMBERS:
                self.report.left(item, "a threshold is a number: report 0 or 1 in an INT")
            elif words is None:
                self.report.left(item, "it is no value of kind " + kind)
            else:
                self.report.said(item, "%s=%s" % (name, words))
                kept.append("%s=%s" % (name, words))
                if thresholds and name in self.consumables:
                    self.report.note(item, "what is reported counts, not what is left")
        return listed(kept)

    def hosts_in(self, words, what):
        return self.present(words, self.there["e"] | self.there["hgrp"], what)

    def hosts_of(self, word):
        """The hosts that a host or a group stands for."""
        return self.group_hosts.get(word, {}) if word.startswith("@") else {word: None}
