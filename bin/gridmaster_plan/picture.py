"""The picture as an SVG."""
import html
import itertools

from .lanes import laid
from .layout import WORDS, heading, layers, owners_shown
from .moments import clock, lasting, ticks
from .palette import COLOURS, GREY, Palette
from .plan import FOREVER
from .svg import cut, tag, text, title, width_of
from .waiting import begins, lines_of_waits

PLOT, RIGHT, ROOM = 1200, 24, 1300  # width of the time, margin, height for rows
HEIGHTS = (18, 15, 12, 9, 6)  # of a lane, that are tried
TABLE = 40  # lines of what waits
PLACES = (14, 130, 280, 390, 440, 540, 850)  # where the columns of what waits begin
NAMES = ("job", "name", "owner", "slots", "tasks", "begins", "why not now")
FONT = "Helvetica, Arial, 'Liberation Sans', 'DejaVu Sans', sans-serif"


class Picture:
    """An SVG that is written from the top to the bottom; `at` is how far it is."""

    def __init__(self, plan, low, high, rows):
        self.plan, self.low, self.high, self.rows, self.parts = plan, low, high, rows, []
        owners, self.owners = owners_shown(plan, low, high, len(COLOURS))
        self.palette = Palette(owners)
        longest = max((row.label("…") + row.state for row in rows), key=len, default="")
        self.left = min(320, max(120, int(width_of(longest)) + 70))
        self.at, self.width = 0, self.left + PLOT + RIGHT

    def add(self, *parts):
        """Adds elements."""
        self.parts += parts

    def x(self, moment):
        """Where a moment stands."""
        inside = min(max(moment, self.low), self.high)
        return self.left + (inside - self.low) * PLOT / (self.high - self.low)

    def head(self):
        """The title and the legend."""
        self.add(text(14, 28, "gridmaster: what is booked", 18, font_weight="bold"))
        self.add(text(14, 48, heading(self.plan), 13, fill="#333"))
        self.at = 62
        there = {bar.kind for bar in self.plan.bars} | {"run"}
        self.legend([(words, self.palette.style(kind, "")) for kind, words in WORDS.items() if kind in there])
        owners = [(owner, dict(fill=colour)) for owner, colour in self.palette.colours.items()]
        if self.owners > len(owners):
            owners.append((f"{self.owners - len(owners)} other owners", dict(fill=GREY)))
        self.legend(owners)

    def legend(self, items):
        """A line of samples with their words, or more lines."""
        x = 14
        for words, style in items:
            width = 34 + width_of(words) + 12
            if x + width > self.width:
                x, self.at = 14, self.at + 20
            self.add(tag("rect", x=x, y=self.at, width=22, height=12, **style), text(x + 28, self.at + 10.5, words))
            x += width
        self.at += 22 if items else 0

    def strip(self):
        """The slots of all instances that are booked over time."""
        total = sum(row.slots for row in self.rows) or 1
        top, height = self.at + 18, 44
        self.add(text(self.left - 8, top + 9, f"{total} slots", 11, text_anchor="end", fill="#444"))
        self.add(text(self.left - 8, top + height, "0", 11, text_anchor="end", fill="#444"))
        self.add(tag("rect", x=self.left, y=top, width=PLOT, height=height, fill="#fafafa", stroke="#ccc"))
        self.stack([bar for row in self.rows for bar in row.bars], top, height, total)
        self.strip_edges, self.at = (top, top + height), top + height + 8

    def stack(self, bars, top, height, slots):
        """Sums of slots, one on the other; neighbours in time that are alike are one."""
        open_sums = {}
        for start, end, sums in [*layers(bars, self.low, self.high), (self.high, self.high, [])]:
            lowest = itertools.accumulate((count for _, _, count in sums), initial=0)
            still = {(*part, lower): open_sums.pop((*part, lower), start) for part, lower in zip(sums, lowest)}
            self.add(*(self.summed(part, begun, start, (top, height, slots)) for part, begun in open_sums.items()))
            open_sums = still

    def summed(self, part, start, end, place):
        """One piece of a stack: slots from a lower number on, in a row of so many."""
        (kind, owner, count, lower), (top, height, slots) = part, place
        size = max(slots, 1)
        upper, lower = min(1, (lower + count) / size), min(1, lower / size)
        style = self.palette.style(kind, owner) | dict(stroke_width=0.0 if kind != "over" else 1.0)
        words = f"{owner}: {count} slots, {clock(start)} to {clock(end)}, {WORDS[kind]}"
        box = dict(x=self.x(start), y=top + height * (1 - upper), width=max(0.3, self.x(end) - self.x(start)))
        return tag("rect", title(words), **box, height=max(0.3, height * (upper - lower)), **style)

    def axis(self, y):
        """Moments in a line."""
        for moment, words, day in ticks(self.low, self.high, 14):
            weight = "bold" if day else "normal"
            self.add(text(self.x(moment), y, words, 11, text_anchor="middle", fill="#333", font_weight=weight))

    def grid(self, top, bottom):
        """The lines of the moments."""
        for moment, _, day in ticks(self.low, self.high, 14):
            x = self.x(moment)
            self.add(tag("line", x1=x, x2=x, y1=top, y2=bottom, stroke="#999" if day else "#ddd", stroke_width=1))

    def sizes(self):
        """What the rows have on lanes, the height of a lane, and that of each row; no lanes where rows are summed up."""
        if all(len(row.names) == 1 for row in self.rows):
            lying = [laid(row) for row in self.rows]
            for height in HEIGHTS:
                heights = [max(16, count * height) for _, count in lying]
                if sum(heights) + 6 * len(heights) <= ROOM:
                    return lying, height, heights
        return None, 0, [max(13, min(40, ROOM // max(1, len(self.rows)) - 4))] * len(self.rows)

    def body(self):
        """The rows between two axes."""
        lying, lane, heights = self.sizes()
        self.axis(self.at + 14)
        self.at += 20
        first, gap = self.at, 4 if lying is None else 6
        self.grid(first, first + sum(heights) + gap * len(heights))
        for place, (row, height) in enumerate(zip(self.rows, heights)):
            self.ground(row, height)
            if lying is None:
                self.sums(row, height)
            else:
                self.lanes(row, lying[place], height, lane)
            self.at += height + gap
        self.axis(self.at + 12)
        self.now(first, self.at)
        if lying is None:
            self.tell_sums()
        self.at += 42

    def tell_sums(self):
        """Says that not all bars are shown one by one."""
        bars = sum(len(row.bars) for row in self.rows)
        several = "rows are several instances, and " if any(len(row.names) > 1 for row in self.rows) else ""
        words = f"{several}{bars} bars that don't fit are summed up by owner"
        self.add(text(self.left, self.at + 30, words, 11, fill="#555"))
        self.at += 16

    def ground(self, row, height):
        """The label and the ground of a row."""
        style = dict(fill="#f4e4e4" if row.state else "#f7f7f7", fill_opacity=0.6, stroke="#ccc", stroke_width=0.6)
        self.add(tag("rect", x=self.left, y=self.at, width=PLOT, height=height, **style))
        numbers, y = f"{row.used}/{row.slots}", self.at + height / 2 + 4
        self.add(text(self.left - 8, y, numbers, 11, text_anchor="end", fill="#555"))
        label = row.label("…") + (f" {row.state}" if row.state else "")
        room = self.left - 22 - width_of(numbers, 11)
        self.add(text(14, y, cut(label, room), 12 if height > 14 else 11))

    def lanes(self, row, lying, height, lane):
        """The bars of a row on its lanes."""
        pieces, count = lying
        size = min(lane * count, height) / count
        top = self.at + (height - size * count) / 2
        inner = {at for piece in pieces if piece.inside for at in range(piece.first, piece.first + piece.count)}
        bars = [self.bar(piece, top, size, inner) for piece in pieces]
        self.add(f'<g class="row" data-instance="{html.escape(row.names[0])}">', *bars, "</g>")

    def sums(self, row, height):
        """The bars of a row summed up."""
        self.add(f'<g class="sum" data-instances="{len(row.names)}" data-bars="{len(row.bars)}">')
        self.stack(row.bars, self.at, height, row.slots)
        self.add("</g>")

    def bar(self, piece, top, lane, inner):
        """One bar, with as much of its words as has room; those of an advance reservation on a lane without a task."""
        bar, first = piece.bar, piece.first
        inset = min(3.0, lane / 5) if piece.inside else 0.0
        y, height = top + first * lane + 0.6 + inset, piece.count * lane - 1.2 - 2 * inset
        x, width = self.x(bar.start), max(0.5, self.x(bar.end) - self.x(bar.start))
        box = dict(x=x, y=y, width=width, height=height)
        style = self.palette.style(bar.kind, bar.owner) | (dict(stroke="none") if width < 3 else {})
        parts = [title(told(bar))] + [tag("rect", **box, fill="#fff")] * piece.inside
        parts.append(tag("rect", **box, rx=min(2.0, width / 4), **style))
        if bar.end > self.high:
            parts.append(self.tip(bar, y, height))
        free = [at for at in range(first, first + piece.count) if at not in inner]
        if bar.kind != "booked":
            parts += self.words(bar, x, y, width, height)
        elif free:
            parts += self.words(bar, x, top + free[0] * lane, width, lane)
        return tag("g", "".join(parts), class_="bar", data_task=bar.task, data_kind=bar.kind, data_instance=bar.instance)

    def tip(self, bar, y, height):
        """The arrow of a bar that goes on behind the right edge."""
        path = f"M{self.left + PLOT + 1} {y:.1f} l8 {height / 2:.1f} l-8 {height / 2:.1f} z"
        return tag("path", d=path, fill=self.palette.colour(bar.owner))

    def words(self, bar, x, y, width, height):
        """What is written in a bar: the longest that has room, if any."""
        size = 11 if height >= 12 else 9
        longest = f"{'! ' if bar.kind == 'over' else ''}{bar.task} {bar.name}"
        places = ((words, self.place(words, size, x, width)) for words in (longest, bar.task) if height >= 8)
        words, start = next(((words, start) for words, start in places if start is not None), ("", None))
        if start is None:
            return []
        style = self.palette.text_style(bar.kind, bar.owner)
        return [tag("text", html.escape(words), x=start, y=float(y + height / 2 + size * 0.36), font_size=size, **style)]

    def place(self, words, size, x, width):
        """Where a text begins in a bar, so that the line at now doesn't cross it; None where it has no room."""
        long, now = len(words) * size * 0.58, self.x(self.plan.now)
        start = now + 5.0 if x < now < x + long + 7 else x + 4.0
        return start if start + long + 3 <= x + width else None

    def now(self, first, bottom):
        """The line at now: over the strip and over all rows, but not over the moments between them."""
        x, (strip, below) = self.x(self.plan.now), self.strip_edges
        for upper, lower in ((strip - 4, below), (first, bottom)):
            self.add(tag("line", x1=x, x2=x, y1=upper, y2=lower, stroke="#fff", stroke_width=4, stroke_opacity=0.7))
            self.add(tag("line", x1=x, x2=x, y1=upper, y2=lower, stroke="#000", stroke_width=1.8, class_="now"))
        self.add(text(x, strip - 7, f"now, {clock(self.plan.now)}", text_anchor="middle", font_weight="bold"))

    def waits(self):
        """What waits, as a table."""
        if not self.plan.waits:
            return
        lines, left_out = lines_of_waits(self.plan, TABLE)
        self.add(text(14, self.at, "What waits", 15, font_weight="bold"))
        self.cells(NAMES, fill="#666")
        for wait in lines:
            values = (wait.job, wait.name, wait.owner, str(wait.slots), wait.tasks, begins(wait, self.plan), wait.why)
            self.cells(values, class_="wait")
        if left_out:
            self.at += 17
            self.add(text(14, self.at, f"and {left_out} jobs more"))
        self.at += 26

    def cells(self, values, **style):
        """One line of a table."""
        self.at += 17
        for x, end, words in zip(PLACES, [*PLACES[1:], self.width], values):
            self.add(text(x, self.at, cut(words, end - x - 6), **style))

    def notes(self):
        """What else is to be known."""
        for note in self.plan.notes:
            self.add(text(14, self.at, note, 11, fill="#555"))
            self.at += 15

    def written(self):
        """The whole picture."""
        self.add(tag("defs", "".join(self.palette.patterns())), tag("rect", width="100%", height="100%", fill="#fff"))
        for part in (self.head, self.strip, self.body, self.waits, self.notes):
            part()
        height = int(self.at) + 10
        size = dict(width=self.width, height=height, viewBox=f"0 0 {self.width} {height}")
        content = "\n".join([title(heading(self.plan)), *self.parts])
        return tag("svg", "\n" + content + "\n", xmlns="http://www.w3.org/2000/svg", **size, font_family=FONT) + "\n"


def told(bar):
    """What a bar tells where the pointer rests on it."""
    until = "without an end" if bar.end >= FOREVER else f"to {clock(bar.end)}, {lasting(bar.end - bar.start)}"
    what = f"{bar.task} {bar.name} of {bar.owner}: {bar.slots} slots at {bar.instance}"
    return f"{what}, {clock(bar.start)} {until}; {WORDS[bar.kind]}"
