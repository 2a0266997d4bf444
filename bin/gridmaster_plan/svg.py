"""Elements of an SVG, and what room its letters take."""
import html

LETTER = 0.56  # what a letter takes at most on the average, as a part of the size of the font


def shown(value):
    """The value of an attribute: numbers with a fraction are rounded, which keeps the file short."""
    return html.escape(f"{value:.1f}" if isinstance(value, float) else str(value))


def tag(name, content="", **attributes):
    """An element; in the name of an attribute a `_` stands for `-`, and one at its end sets it apart from a word of Python."""
    names = {key: key.strip("_").replace("_", "-") for key in attributes}
    written = "".join(f' {names[key]}="{shown(value)}"' for key, value in attributes.items())
    return f"<{name}{written}>{content}</{name}>" if content else f"<{name}{written}/>"


def text(x, y, words, size=12, **style):
    """A line of text."""
    return tag("text", html.escape(words), x=float(x), y=float(y), font_size=size, **style)


def title(words):
    """What is told where the pointer rests."""
    return tag("title", html.escape(words))


def width_of(words, size=12):
    """The room that a text takes at most."""
    return len(words) * size * LETTER


def cut(words, width, size=12):
    """A text cut to a width."""
    most = int(width / (size * LETTER))
    return words if len(words) <= most else words[: most - 1] + "…" if most > 1 else ""
