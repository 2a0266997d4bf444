"""The table of complexes."""
from gridmaster_load.clusters import refusal
from gridmaster_load.values import NUMBERS, number, value

PATTERNED = "a request is a plain word here, no pattern"


def complexes(site):
    """Tries the rows, and learns the names, kinds and consumables that are there."""
    site.kinds = {row.split()[0]: row.split()[2] for row in site.new.ask("qconf -sc")[1]}
    rows = [found for found in (read_row(site, line.split()) for line in site.folder.lines("centry")) if found]
    for place, row in tried_rows(site, rows):
        site.report.begin(*place)
        site.report.take()
        site.rows.append((place, row))
    table = [row.split() for row in site.new.ask("qconf -sc")[1]]
    site.kinds = {row[0]: row[2] for row in table}
    site.full = {row[1]: row[0] for row in table}
    site.full.update((name, name) for name in site.kinds)
    site.consumables = {row[0] for row in table if row[5] != "NO"} | {"slots"}


def read_row(site, words):
    """The place of a row and the row in the words of gridmaster, or None."""
    site.report.begin("centry", words[0])
    if len(words) != 8:
        site.report.drop("a row has eight words")
        return None
    row = complex_row(site, words)
    return row and (site.report.now, " ".join(row))


def complex_row(site, words):
    """A row of the table in the words of gridmaster, or None."""
    name, shortcut, kind, relop, requestable, consumable, default, urgency = words
    countable = consumable.upper() not in ("NO", "N")
    opening = site.kinds.get(name)
    if relop == "EXCL" or countable and kind not in NUMBERS:
        site.report.drop("there is no relop EXCL" if relop == "EXCL" else "a consumable is a number")
        return None
    row = list(words)
    row[2] = opening or ("RESTRING" if kind == "STRING" and site.folder.patterns else kind)
    row[3] = "==" if row[2] not in NUMBERS and relop not in ("==", "!=") else "<=" if countable else relop
    row[5] = "YES" if name == "slots" else consumable
    row[6] = value(row[2], default) or ("0" if row[2] in NUMBERS + ("BOOL",) else "NONE")
    row[7] = "0" if urgency.startswith("-") else number("DOUBLE", urgency) or "0"
    columns = ("name", "shortcut", "type", "relop", "requestable", "consumable", "default", "urgency")
    for column, old, new in zip(columns, words, row):
        if old != new:
            site.report.note("%s %s" % (column, old), "as " + new)
    if site.folder.patterns and row[2] == "CSTRING":
        site.report.note("type CSTRING", PATTERNED)
    return row


def drop_rows(site, codes):
    """Tells of the rows that are refused."""
    for place, _, code in codes:
        site.report.begin(*place)
        site.report.drop(refusal(code))


def tried_rows(site, rows):
    """The rows that are taken: all at once, else one by one, and again as long as one more is taken."""
    if not rows or site.new.ask("qconf -Ac\n" + "\n".join(row for _, row in rows))[0] == 0:
        return rows
    left, taken = rows, []
    while left:
        codes = [(place, row, site.new.ask("qconf -Ac\n" + row)[0]) for place, row in left]
        taken += [(place, row) for place, row, code in codes if code == 0]
        if all(code for _, _, code in codes):
            drop_rows(site, codes)
            break
        left = [(place, row) for place, row, code in codes if code]
    return taken
