"""Moments: dates of the local clock as seconds since 1970, and back."""
import datetime
import re
import time

from gridmaster_words.running import fail, say

DATE = re.compile(r'(?:(\d\d)?(\d\d))?(\d\d)(\d\d)(\d\d)(\d\d)(?:\.(\d\d))?')
SECONDS_TOO = re.compile(r'(\d\d)(\d\d)(\d\d)(\d\d)(\d\d)(\d\d)(\d\d)')


def moment(option, text):
    """A date [[CC]YY]MMDDhhmm[.SS] or CCYYMMDDhhmmSS of the local clock as seconds since 1970, which may stand as they are too."""
    parts = SECONDS_TOO.fullmatch(text) or DATE.fullmatch(text)
    date = date_seconds(parts.groups()) if parts else None
    if re.fullmatch(r'\d{10}', text) and (date is None or abs(int(text) - time.time()) < abs(date - time.time())):
        date = int(text)
    if parts is None and re.fullmatch(r'\d{1,18}', text):
        date = int(text)
    if date is None or date < 0:
        fail(2, '%s %s: no date [[CC]YY]MMDDhhmm[.SS], and no seconds since 1970' % (option, text))
    if date < time.time() - 60:
        say('%s %s is past (%s)' % (option, text, when(date)))
    return str(date)


def date_seconds(parts):
    """The parts of a date as seconds since 1970; None where there is no such date."""
    century, year, month, day, hour, minute, second = parts
    if year is None:
        year = str(time.localtime().tm_year)
    elif century is None:
        year = ('20' if int(year) < 70 else '19') + year
    else:
        year = century + year
    try:
        date = datetime.datetime(int(year), int(month), int(day), int(hour), int(minute), int(second or 0))
        return int(date.timestamp())
    except (ValueError, OverflowError):
        return None


def when(seconds):
    """A moment as Grid Engine prints it."""
    try:
        return time.strftime('%m/%d/%Y %H:%M:%S', time.localtime(int(seconds)))
    except (ValueError, OverflowError, OSError):
        return str(seconds)
