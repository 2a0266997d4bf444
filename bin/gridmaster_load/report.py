"""What is told of each object: taken as it is, changed and how, left out and why."""
import re


def shown(text):
    """A text without bytes that tell a terminal something: names of files and values may hold any."""
    return re.sub("[\x00-\x08\x0a-\x1f\x7f-\x9f]", "?", text)


class Report:
    """What is told of each object: `now` is the one in hand, a file and perhaps a row of it."""

    def __init__(self):
        self.now, self.notes, self.taken, self.gone, self.beside = None, {}, {}, {}, []

    def begin(self, *place):
        self.now = place

    def note(self, what, how):
        self.notes.setdefault(self.now, []).append("%s: %s" % (what, how))

    def said(self, what, words):
        if what != words:
            self.note(what, "as " + words)

    def left(self, what, why):
        self.note(what, "left out, since " + why)

    def take(self):
        self.taken[self.now] = True

    def drop(self, why):
        self.taken.pop(self.now, None)
        self.gone[self.now] = why

    def grouped(self, places):
        """Kind and names of the places of one kind of which the same is told, with what is told."""
        groups = {}
        for place in places:
            kind, _, name = place[0].rpartition("/") if len(place) == 1 else place[:1] + ("",) + place[1:]
            notes = tuple(self.notes.get(place, ())) + ((self.gone[place],) if place in self.gone else ())
            groups.setdefault((kind, notes), []).append(name)
        return [("%s: %s" % (kind, " ".join(names)) if kind else names[0], notes) for (kind, notes), names in groups.items()]

    def part(self, out, title, places, more=()):
        if places or more:
            out.write("\n%s:\n" % title)
        for names, notes in self.grouped(places):
            out.write("".join(["  %s\n" % shown(names)] + ["    %s\n" % shown(note) for note in notes]))
        out.write("".join("  %s\n" % shown(line) for line in more))

    def write(self, out, head):
        changed = [place for place in self.taken if place in self.notes]
        plain = [place for place in self.taken if place not in self.notes]
        counts = len(plain), len(changed), len(self.gone)
        out.write(head + "\n%d objects and rows taken as they are, %d changed, %d left out\n" % counts)
        self.part(out, "changed", changed)
        self.part(out, "left out", list(self.gone), self.beside)
        self.part(out, "taken as they are", plain)
