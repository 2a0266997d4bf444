"""Who asks, as names that a request can have, and patterns of names."""
import functools
import grp
import os
import pwd
import re

from gridmaster_words.running import said, setting


def name_of(text):
    """A login name or group as a name that a request can have: a backslash becomes + and any other such byte _."""
    return re.sub(r'[^A-Za-z0-9_.+-]', '_', text.replace('\\', '+')) or '_'


def user_pattern(text):
    """An item of -u: $user is who asks, and bytes that no name has are changed as in name_of."""
    if text == '$user':
        return user()
    return re.sub(r'[^A-Za-z0-9_.+*?\[\]-]', '_', text.replace('\\', '+'))


def user():
    """Who asks."""
    return name_of(setting('GRIDMASTER_USER') or said(login_name()))


def group():
    """The group of who asks."""
    return name_of(setting('GRIDMASTER_GROUP') or said(group_name(os.getgid())))


def login_name():
    """The login name, or the number of a user without one."""
    try:
        return pwd.getpwuid(os.getuid()).pw_name
    except KeyError:
        return str(os.getuid())


def group_name(number):
    """The name of a group, or its number where it has none."""
    try:
        return grp.getgrgid(number).gr_name
    except KeyError:
        return str(number)


def stands_for(pattern, name):
    """Whether a pattern stands for a whole name: * any bytes, ? one, [set] one of the set; all else stands for itself.

    What is between the stars is looked for one behind the other, so many stars in a pattern don't take long.
    """
    (first, size), *others = pieces(pattern)
    if not others:
        return first.fullmatch(name) is not None
    (last, last_size), at = others.pop(), size
    if first.match(name) is None:
        return False
    for piece, _ in others:
        found = piece.search(name, at)
        if found is None:
            return False
        at = found.end()
    return at + last_size <= len(name) and last.fullmatch(name, len(name) - last_size) is not None


@functools.lru_cache(4096)
def pieces(pattern):
    """What is between the stars of a pattern: regular expressions, each with the number of bytes that it stands for."""
    found, at = [[]], 0
    while at < len(pattern):
        byte, end = pattern[at], pattern.find(']', at + 1)
        if byte == '*':
            found.append([])
        elif byte == '[' and end > 0:
            found[-1].append(set_expression(pattern[at + 1:end]))
            at = end
        else:
            found[-1].append('.' if byte == '?' else re.escape(byte))
        at += 1
    return [(re.compile(''.join(parts), re.S), len(parts)) for parts in found]



def set_expression(members):
    """The bytes and ranges between [ and ] as a regular expression."""
    parts, at = [], 0
    while at < len(members):
        if at + 2 < len(members) and members[at + 1] == '-':
            if members[at] <= members[at + 2]:
                parts.append('[%s-%s]' % (re.escape(members[at]), re.escape(members[at + 2])))
            at += 3
        else:
            parts.append(re.escape(members[at]))
            at += 1
    return '(?:%s)' % '|'.join(parts) if parts else '(?!)'


def any_stands_for(patterns, name):
    """Whether one of several patterns stands for a name."""
    return any(stands_for(pattern, name) for pattern in patterns)



def user_list(text):
    """A list of users as patterns."""
    return [user_pattern(item) for item in text.split(',') if item]
