"""Numbers, names and lists, as Grid Engine and gridmaster write them."""
import fractions
import re

TOP = 2 ** 48 - 1        # the greatest amount
LINE = 65000             # bytes of a line that is sent, of at most 65,536
NUMBERS = ("INT", "TIME", "MEMORY", "DOUBLE")
NUMBER = re.compile(r"(?:(0[xX][0-9a-fA-F]+)|(\d+\.?\d*|\.\d+)(?:[eE]([+-]?\d{1,3}))?)([kKmMgGtT]?)")
SCALES = {"": 1, "k": 10 ** 3, "m": 10 ** 6, "g": 10 ** 9, "t": 10 ** 12,
          "K": 2 ** 10, "M": 2 ** 20, "G": 2 ** 30, "T": 2 ** 40}
AS_IT_IS = {"INT": r"\d+", "TIME": r"\d+|\d*:\d*:\d*", "MEMORY": r"\d+(\.\d{1,6})?[kKmMgG]?", "DOUBLE": r"\d+(\.\d{1,6})?"}


def amount(text):
    """A number of Grid Engine, exactly: a leading 0x is hexadecimal, a leading 0 octal, a letter multiplies. Else None."""
    found = NUMBER.fullmatch(text)
    if not found:
        return None
    hexadecimal, decimal, exponent, scale = found.groups()
    if hexadecimal:
        return int(hexadecimal, 16) * SCALES[scale]
    if re.fullmatch(r"0\d+", decimal) and not exponent:
        return int(decimal, 8) * SCALES[scale] if re.fullmatch("[0-7]+", decimal) else None
    return fractions.Fraction(("0" + decimal).rstrip(".")) * fractions.Fraction(10) ** int(exponent or 0) * SCALES[scale]


def greatest(kind):
    return {"INT": str(TOP), "DOUBLE": "%d.%06d" % divmod(TOP, 10 ** 6)}.get(kind, "INFINITY")


def number(kind, text):
    """A value of a number kind in the words of gridmaster, or None."""
    if text.upper() == "INFINITY":
        return text if kind in ("TIME", "MEMORY") else greatest(kind)
    if kind == "TIME" and ":" in text:
        return text if re.fullmatch(AS_IT_IS[kind], text) else None
    there = amount(text)
    if there is None:
        return None
    units = int(there * 10 ** 6) if kind == "DOUBLE" else int(there)
    if units > TOP:
        return greatest(kind)
    if re.fullmatch(AS_IT_IS[kind], text) and not re.match(r"0\d", text):
        return text
    return "%d.%06d" % divmod(units, 10 ** 6) if kind == "DOUBLE" else str(units)


def value(kind, text):
    """A value of a kind in the words of gridmaster, or None."""
    if kind in NUMBERS:
        return number(kind, text)
    if kind == "BOOL":
        return text if text.upper() in ("TRUE", "FALSE", "1", "0") else None
    return text if re.fullmatch(r"[!-+\--<>-\\^-~]{1,255}", text) else None


def is_name(text):
    return re.fullmatch(r"[A-Za-z0-9_.+-]{1,255}", text) is not None


def items(text):
    """The items of a list, which blanks and commas divide."""
    return [] if text.strip().upper() == "NONE" else [word for word in re.split(r"[\s,]+", text) if word]


def listed(words):
    return ",".join(words) or "NONE"


def cut_overrides(text):
    """A value with overrides: the plain value, and pairs of a host or group and its value."""
    found = re.search(r",?\s*\[", text)
    if not found:
        return text.strip(), []
    pairs = re.findall(r"\[([^=\]]+)=([^\]]*)\]", text[found.start():])
    return text[:found.start()].strip(), [(who.strip(), said.strip()) for who, said in pairs]


def with_overrides(plain, overrides):
    return ",".join([plain] + ["[%s=%s]" % pair for pair in overrides])


def shortened(line):
    """A line in pieces that end with a backslash, none of them too long, cut behind commas."""
    pieces = []
    while len(line) > LINE and "," in line[:LINE]:
        end = line.rindex(",", 0, LINE) + 1
        pieces.append(line[:end] + "\\")
        line = line[end:]
    return "\n".join(pieces + [line])
