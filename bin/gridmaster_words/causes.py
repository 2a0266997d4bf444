"""What a refusal may speak of: the options of a request that its code fits, and values of the kinds of complexes."""
import functools
import re

from gridmaster_words.asking import request, tried

VALUE = {
    'INT': r'\d+',
    'TIME': r'\d+|\d*:\d*:\d*|INFINITY',
    'MEMORY': r'\d+(\.\d{1,6})?[kKmMgG]?|INFINITY',
    'DOUBLE': r'\d+(\.\d{1,6})?',
    'BOOL': r'(?i:true|false)|1|0',
}
FORM = {
    '-A': r'[^/:@\\*?"\'\x00- \x7f-\xff]{1,128}',
    '-N': r'(?![0-9])[^/:@\\*?"\'\x00- \x7f-\xff]{1,128}',
    '-P': r'[A-Za-z0-9_.+-]{1,255}',
    '-R': r'y|yes|n|no',
    '-a': r'\d+', '-ar': r'\d+', '-dl': r'\d+', '-js': r'\d+', '-ot': r'\d+',
    '-p': r'-?\d+',
    '-t': r'[1-9]\d*(-[1-9]\d*(:[1-9]\d*)?)?',
}


def option_causes(code, option, given):
    """The parts of one option that a refusal of this code may speak of."""
    if option == '-l':
        return ['-l ' + item for item in asked_items(given) if item_is_cause(code, item)]
    if option in ('-hold_jid', '-hold_jid_ad'):
        return hold_causes(code, option, given)
    return [' '.join([option] + given)] if option_is_cause(code, option, given) else []


def option_is_cause(code, option, given):
    """Whether a refusal of this code may speak of an option that stands as a whole."""
    if code == 11:
        return option in FORM and re.fullmatch(FORM[option], given[0]) is None
    if code == 14:
        shown = {'-pe': 'qconf -sp', '-P': 'qconf -sprj', '-ar': 'qrstat -ar'}.get(option)
        return shown is not None and tried(request(*shown.split() + [given[0]])) is None
    if code == 15:
        return option in ('-P', '-ar', '-ot') or option == '-p' and int(given[0]) > 0
    if code == 17:
        return option in ('-q', '-pe', '-P')
    if code == 18:
        return out_of_range(option, given)
    return code == 21 and option in ('-t', '-pe')


def out_of_range(option, given):
    """Whether the number behind an option is out of its range."""
    if any(len(word) > 1000 for word in given):  # Python reads no number of thousands of digits
        return option in ('-p', '-js', '-ot', '-a', '-dl', '-pe')
    if option == '-p':
        return not -1023 <= int(given[0]) <= 1024
    if option in ('-js', '-ot'):
        return int(given[0]) >= 2 ** 32
    if option in ('-a', '-dl'):
        return int(given[0]) >= 2 ** 40 or option == '-dl' and int(given[0]) == 0
    if option == '-pe':
        ends = re.findall(r'\d+', given[1])
        return any(not 1 <= int(end) <= 1000000 for end in ends) or len(ends) == 2 and int(ends[0]) > int(ends[1])
    return False


def asked_items(given):
    """The items of -l."""
    return [item for word in given for item in word.split(',')]


def item_is_cause(code, item):
    """Whether a refusal of this code may speak of an item of -l."""
    name, equals, value = item.partition('=')
    if code in (11, 17):
        return code == 17 or not re.fullmatch(r'[A-Za-z0-9_.+-]{1,255}', name)
    row = next((row for row in complex_rows() if name in (row['name'], row['shortcut'])), None)
    if code == 14:
        return row is None
    if code == 19:
        return row is not None and row['requestable'] == 'NO'
    return code == 18 and row is not None and (row['name'] == 'slots' or not is_value(row['type'], value if equals else 'TRUE'))


def is_value(kind, text):
    """Whether a text is a value of a kind."""
    if re.fullmatch(VALUE.get(kind, r'[!-+\--<>-\\^-~]{1,255}'), text) is None:
        return False
    return kind not in ('INT', 'TIME', 'MEMORY', 'DOUBLE') or amount(kind, text) < 2 ** 48


def amount(kind, text):
    """A value of a number kind as a number."""
    if text == 'INFINITY':
        return 2 ** 48 - 1
    if kind == 'TIME' and ':' in text:
        return sum(int(part or 0) * unit for part, unit in zip(text.split(':'), (3600, 60, 1)))
    if kind == 'MEMORY' and text[-1] in 'kKmMgG':
        base = 1000 if text[-1].islower() else 1024
        return int(float(text[:-1]) * base ** ('kmg'.index(text[-1].lower()) + 1))
    return float(text) if kind == 'DOUBLE' else int(float(text))


@functools.lru_cache(None)
def complex_rows():
    """The table of complexes, asked for once."""
    columns = ('name', 'shortcut', 'type', 'relop', 'requestable', 'consumable', 'default', 'urgency')
    return tuple(dict(zip(columns, line.split())) for line in tried('qconf -sc') or ())


def hold_causes(code, option, given):
    """The jobs of a hold list that a refusal of this code may speak of."""
    items = [item for word in given for item in word.split(',')]
    if code == 14:
        return [option + ' ' + item for item in items if item.isdigit() and never_was(item)]
    if code == 11:
        return [option + ' ' + item for item in items if not re.fullmatch(r'[!-~]{1,128}', item)]
    return [option + ' ' + ','.join(items)] if code == 20 or code == 18 and option == '-hold_jid_ad' else []


def never_was(number):
    """Whether a number is neither that of a live job nor of one that was accounted."""
    return tried('qstat -j ' + number) is None and tried('qacct -j ' + number) is None
