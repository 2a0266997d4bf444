"""The colours of an SVG: one for each of the owners with most slots, and how bars of each kind are filled and framed."""
from .svg import tag

# Colours that differ for the colour-blind too (Okabe and Ito), and those of them that a text is white on.
COLOURS = ("#0072B2", "#E69F00", "#009E73", "#CC79A7", "#56B4E9", "#D55E00", "#332288")
GREY = "#7a7a7a"
DARK = {"#0072B2", "#009E73", "#D55E00", "#332288", GREY}


class Palette:
    """The colours of owners; those without one are grey."""

    def __init__(self, owners):
        self.colours = dict(zip(owners, COLOURS))
        self.numbers = {owner: number for number, owner in enumerate(self.colours)}

    def colour(self, owner):
        """The colour of an owner."""
        return self.colours.get(owner, GREY)

    def pattern(self, owner):
        """The name of an owner's hatching."""
        return f"hatched{self.numbers.get(owner, 'other')}"

    def patterns(self):
        """The hatchings of advance reservations."""
        turned = dict(width=7, height=7, patternUnits="userSpaceOnUse", patternTransform="rotate(-45)")
        ground = tag("rect", width=7, height=7, fill="#fff")
        for owner in [*self.colours, None]:
            stripe = tag("rect", width=2.2, height=7, fill=self.colour(owner))
            yield tag("pattern", ground + stripe, id=self.pattern(owner), **turned)

    def style(self, kind, owner):
        """How a bar of a kind is filled and framed."""
        colour = self.colour(owner)
        return {
            "run": dict(fill=colour, stroke="#fff", stroke_width=0.6),
            "over": dict(fill=colour, stroke="#000", stroke_width=2.0),
            "booked": dict(fill=f"url(#{self.pattern(owner)})", stroke=colour, stroke_width=1.2),
            "next": dict(fill=colour, fill_opacity=0.5, stroke=colour, stroke_width=1.2),
            "reserve": dict(fill=colour, fill_opacity=0.3, stroke=colour, stroke_width=1.4, stroke_dasharray="5 3"),
            "later": dict(fill=colour, fill_opacity=0.3, stroke=colour, stroke_width=0.4),
        }[kind]

    def text_style(self, kind, owner):
        """How a text on a bar is written: on a pale one with an edge, so that it can be read over hatching."""
        if kind not in ("run", "over"):
            return dict(fill="#111", stroke="#fff", stroke_width=2.6, paint_order="stroke", stroke_linejoin="round")
        return dict(fill="#fff" if self.colour(owner) in DARK else "#111")
