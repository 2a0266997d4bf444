"""Moments and spans of time: read from replies, written as texts, and as the marks of an axis."""
import time

from .plan import FOREVER

INFINITY = 2**48 - 1  # a duration without an end
DATES = 10**9  # moments from here on are dates
DAY = 86400
WEEK = 7 * DAY
STEPS = (1, 5, 10, 30, 60, 300, 600, 900, 1800, 3600, 7200, 14400, 21600, 43200, DAY, 2 * DAY, WEEK)


def seconds(value):
    """A printed TIME in seconds."""
    if value == "INFINITY":
        return INFINITY
    hours, minutes, rest = value.split(":")
    return int(hours) * 3600 + int(minutes) * 60 + int(rest)


def clock(moment):
    """A moment as a date, or as hours, minutes and seconds where it is too small for one."""
    if moment >= FOREVER:
        return "never"
    if moment >= DATES:
        year = "" if time.localtime(moment).tm_year == time.localtime().tm_year else " %Y"
        return time.strftime(f"%-d %b{year} %H:%M", time.localtime(moment))
    return f"{moment // 3600}:{moment % 3600 // 60:02}:{moment % 60:02}"


def lasting(span):
    """A span of time in its two greatest units."""
    for size, unit, below, small in ((DAY, "d", 3600, "h"), (3600, "h", 60, "min"), (60, "min", 1, "s")):
        if span >= size:
            return f"{span // size} {unit}" + (f" {span % size // below} {small}" if span % size // below else "")
    return f"{span} s"


def tick_step(span, most):
    """The seconds between two marks of an axis that has room for so many."""
    return next((step for step in STEPS if span <= step * most), max(WEEK, -(-span // most // WEEK) * WEEK))


def tick_text(moment, step, day):
    """What stands at a mark of an axis, and whether a day begins there that is worth telling."""
    if moment >= DATES:
        form = "%-d %b" if day else "%H:%M" if step >= 60 else "%H:%M:%S"
        return time.strftime(form, time.localtime(moment)), day
    days, rest = divmod(moment, DAY)
    hours = f"{rest // 3600}:{rest % 3600 // 60:02}" + f":{rest % 60:02}" * (step < 60)
    return f"day {days}" if day and days else hours, day and days > 0


def ticks(low, high, most):
    """Moments of an axis, with the text of each and whether a day begins there."""
    step = tick_step(high - low, most)
    shift = time.localtime(low).tm_gmtoff if low >= DATES else 0
    for moment in range(-(-(low + shift) // step) * step - shift, high + 1, step):
        text, day = tick_text(moment, step, (moment + shift) % DAY == 0)
        yield moment, text, day
