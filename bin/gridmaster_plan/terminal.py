"""The picture in cells of a terminal."""
import bisect
import itertools

from .lanes import laid
from .layout import WORDS, heading, layers, owners_shown
from .moments import clock, ticks
from .waiting import begins, lines_of_waits

FILLS = {"run": "=", "over": "!", "booked": "/", "next": "+", "reserve": "-", "later": "."}
TINTS = (25, 214, 29, 176, 81, 166, 54)  # numbers in the table of 256 colours
BRIGHT = {214, 176, 81}  # of these, those that a text is black on
GREY = 244
CELLS = 3  # that a bar has at least on the average, where each slot has a line
BLOCKS = " ▁▂▃▄▅▆▇█"


class Screen:
    """A picture in cells of a terminal: a line for each slot where they fit, else one for each row."""

    def __init__(self, plan, low, high, rows, options):
        self.plan, self.low, self.high, self.rows = plan, low, high, rows
        self.plain, self.most = options.plain, options.rows
        owners, _ = owners_shown(plan, low, high, len(TINTS))
        self.tints = dict(zip(owners, TINTS))
        self.letters = dict(zip(owners, "ABCDEFG"))
        self.margin = max([len(row.label("..")) for row in rows] + [8]) + 10
        self.count = max(20, options.columns - self.margin - 1)
        self.lying = self.lanes_that_fit()

    def lanes_that_fit(self):
        """What each row has on lanes; None where the lanes or the words of the bars have no room."""
        if any(len(row.names) > 1 for row in self.rows):
            return None
        lying = [laid(row) for row in self.rows]
        lanes, bars = sum(count for _, count in lying), sum(len(pieces) for pieces, _ in lying)
        return lying if lanes <= self.most and bars * CELLS <= lanes * self.count else None

    def tinted(self, words, owner, kind):
        """A text in the colour of its owner: full where it runs, as a line where it is pale."""
        if self.plain or owner is None:
            return words
        tint = self.tints.get(owner, GREY)
        look = f"48;5;{tint};38;5;{16 if tint in BRIGHT else 231}" if kind in ("run", "over") else f"38;5;{tint}"
        return f"\033[{look}m{words}\033[0m"

    def cell(self, moment):
        """The cell of a moment."""
        return min(self.count, max(0, (moment - self.low) * self.count // (self.high - self.low)))

    def bar(self, bar, width):
        """A bar in so many cells, with as much of its words as has room."""
        fill = " " if bar.kind == "run" and not self.plain else FILLS[bar.kind]
        if width < 3:
            return fill * width
        longest = f"{bar.task} {bar.name} {bar.owner}"
        words = next((words for words in (longest, f"{bar.task} {bar.owner}", bar.task) if len(words) <= width - 2), "")
        tip = ">" if bar.end > self.high else "]"
        return "[" + words + fill * (width - 2 - len(words)) + tip

    def lane(self, pieces):
        """One line of a row, with the line at now where no bar is; what lies in an advance reservation is drawn in it."""
        cells, now = [(" ", None, "")] * self.count, self.cell(self.plan.now)
        if now < self.count:
            cells[now] = ("|", None, "")
        for piece in sorted(pieces, key=lambda piece: piece.inside):
            bar, first = piece.bar, min(self.cell(piece.bar.start), self.count - 1)
            width = max(1, self.cell(bar.end) - first)
            if piece.inside and width > 4:
                first, width = first + 1, width - 2
            cells[first : first + width] = [(letter, bar.owner, bar.kind) for letter in self.bar(bar, width)]
        alike = itertools.groupby(cells, key=lambda cell: cell[1:])
        return "".join(self.tinted("".join(cell[0] for cell in same), *look) for look, same in alike)

    def summed(self, row):
        """A row as one line: how full it is in each piece of time, by the owner who has most of it."""
        pieces = list(layers(row.bars, self.low, self.high))
        starts = [start for start, _, _ in pieces]
        middles = (self.low + (self.high - self.low) * (2 * at + 1) // (2 * self.count) for at in range(self.count))
        found = (pieces[bisect.bisect_right(starts, moment) - 1][2] for moment in middles)
        return "".join(self.mark(at, sums, row.slots) for at, sums in enumerate(found))

    def mark(self, at, sums, slots):
        """The cell of a summed row."""
        if not sums:
            return "|" if at == self.cell(self.plan.now) else " "
        kind, owner, _ = max(sums, key=lambda part: part[2])
        if self.plain:
            letter = self.letters.get(owner, "O")
            return {"run": letter, "over": letter, "booked": "/"}.get(kind, letter.lower())
        full = sum(count for _, _, count in sums) / max(slots, 1)
        block = "/" if kind == "booked" else BLOCKS[max(1, min(8, round(full * 8)))]
        faint = "" if kind in ("run", "over", "booked") else "2;"
        return f"\033[{faint}38;5;{self.tints.get(owner, GREY)}m{block}\033[0m"

    def axis(self):
        """The moments below the rows."""
        cells = [" "] * self.count
        for moment, words, _ in ticks(self.low, self.high, max(2, self.count // 12)):
            at = self.cell(moment)
            if at + len(words) <= self.count and not "".join(cells[max(0, at - 1) : at + len(words) + 1]).strip():
                cells[at : at + len(words)] = words
        now = self.cell(self.plan.now)
        return ["".join(cells), " " * now + f"^ now, {clock(self.plan.now)}"]

    def lanes(self, lying):
        """The lines of a row's lanes."""
        pieces, count = lying
        on_lane = [[] for _ in range(count)]
        for piece, lane in ((piece, lane) for piece in pieces for lane in range(piece.first, piece.first + piece.count)):
            on_lane[lane].append(piece)
        return map(self.lane, on_lane)

    def body(self):
        """The lines of all rows; the label of a row stands at its first line."""
        for place, row in enumerate(self.rows):
            head = f"{row.label('..')} {row.used}/{row.slots}".ljust(self.margin - 1)
            tail = f" {row.state}" if row.state else ""
            first, *others = [self.summed(row)] if self.lying is None else self.lanes(self.lying[place])
            yield f"{head} {first}{tail}"
            yield from (" " * self.margin + line for line in others)

    def legend(self):
        """What the letters and colours mean."""
        if self.lying is not None:
            there = {bar.kind for bar in self.plan.bars}
            yield "  ".join(f"[{FILLS[kind]}] {words}" for kind, words in WORDS.items() if kind in there)
        elif self.plain:
            letters = "  ".join(f"{letter} {owner}" for owner, letter in self.letters.items())
            yield f"{letters}  O other owners; small letters: not yet; /: advance reservation"
        if not self.plain:
            yield "  ".join(self.tinted(f" {owner} ", owner, "run") for owner in self.tints)

    def waits(self):
        """What waits."""
        lines, left_out = lines_of_waits(self.plan, self.most)
        for wait in lines:
            tasks = "" if wait.tasks == "-" else f", tasks {wait.tasks}"
            slots = "1 slot" if wait.slots == 1 else f"{wait.slots} slots"
            what = f"{wait.job} {wait.name} of {wait.owner}, {slots}{tasks}"
            yield f"waits: {what}; begins {begins(wait, self.plan)}; {wait.why}"
        if left_out:
            yield f"and {left_out} jobs more"

    def written(self):
        """All lines."""
        axis = [" " * self.margin + line for line in self.axis()]
        lines = [heading(self.plan), *self.body(), *axis, *self.legend(), *self.waits(), *self.plan.notes]
        return "".join(line.rstrip() + "\n" for line in lines)
