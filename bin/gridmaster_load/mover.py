"""Brings what a new cluster took over to the gridmaster, where it isn't there already."""
from gridmaster_load.clusters import AT_ONCE, Gridmaster, refusal


class Mover:
    """Brings what a new cluster took over to the gridmaster, where it isn't there already."""

    def __init__(self, site, report):
        self.site, self.report, self.master = site, report, Gridmaster()

    def refused(self, place, code):
        self.report.begin(*place)
        self.report.drop("the gridmaster " + refusal(code))

    def complexes(self):
        """The rows that differ: all at once, else one by one."""
        table = set(self.master.ask("qconf -sc")[1])
        rows = [(place, row) for place, row, printed in self.site.rows if printed not in table]
        if not rows or self.master.change("qconf -Ac\n" + "\n".join(row for _, row in rows)) == 0:
            return
        for place, row in rows:
            code = self.master.change("qconf -Ac\n" + row)
            if code:
                self.refused(place, code)

    def bring(self, things):
        """Objects that don't cite each other, added, or put over others of their names."""
        codes = {thing: 16 for thing in things}

        def change(some, text):
            codes.update(zip(some, self.master.change_all([text(thing) for thing in some])))
        change([thing for thing in things if thing.kind != "sconf"], lambda thing: thing.put("-A"))
        change([thing for thing in things if codes[thing] == 0 and thing.load], lambda thing: thing.load)
        there = [thing for thing in things if codes[thing] == 16]
        shown = self.master.ask_all([thing.show() for thing in there])
        codes.update((thing, 0) for thing in there)
        change([thing for thing, (_, lines) in zip(there, shown) if lines != thing.printed], lambda thing: thing.put("-M"))
        for thing, code in codes.items():
            if code:
                self.refused(thing.place, code)

    def drop_opening(self, show, delete):
        """Deletes a part of a new cluster, where it still is as it was there."""
        code, lines = self.master.ask(show)
        if code == 0 and lines == self.site.opening[show]:
            code = self.master.change(delete)
            if code:
                self.report.beside.append("%s: %s" % (delete, refusal(code)))

    def people(self):
        self.add_people("managers", "-sm", "-am", self.site.managers)
        self.add_people("operators", "-so", "-ao", self.site.operators)

    def add_people(self, file, show, add, names):
        """Adds those who aren't there."""
        there = set(self.master.ask("qconf " + show)[1])
        for name in [name for name in names if name not in there]:
            code = self.master.change("qconf %s %s" % (add, name))
            if code:
                self.refused((file, name), code)

    def move(self):
        self.complexes()
        hosts = [thing for thing in self.site.objects if thing.kind == "e"]
        others = [thing for thing in self.site.objects if thing.kind != "e"]
        queues = {thing.name for thing in others if thing.kind == "q"}
        with self.master.one_connection():
            for first in range(0, len(hosts), AT_ONCE):
                self.bring(hosts[first:first + AT_ONCE])
        if queues and "all.q" not in queues:
            self.drop_opening("qconf -sq all.q", "qconf -dq all.q")
        for thing in others:
            self.bring([thing])
        if queues and "local" not in self.site.hosts:
            self.drop_opening("qconf -se local", "qconf -de local")
        self.people()
