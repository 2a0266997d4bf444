"""What the listing commands here share: rows of the gridmaster's lists, tables, queue instances and what they have."""
import functools
import os
import pwd
import re
import sys

from gridmaster_words.asking import request, show, told, tried
from gridmaster_words.causes import amount, complex_rows
from gridmaster_words.names import any_stands_for, group, group_name, stands_for, user
from gridmaster_words.running import fail, path_of, said, setting

CLOSED = 'qmod.closed'
RUNNING = ('r', 'dr')


# Tables

def at_terminal():
    """Whether standard output is a terminal, for which lists get headers and columns."""
    return sys.stdout.isatty()


def table(head, rows, widths=(), right=(), behind=()):
    """Prints a header, a line and aligned rows, each with its lines behind it; a column is no narrower than Grid Engine's."""
    rows = [[str(cell) for cell in row] for row in rows]
    least = list(widths) + [0] * (len(head) - len(widths))
    wide = [max([len(head[k]), least[k]] + [len(row[k]) for row in rows]) for k in range(len(head))]
    lines = [' '.join(cell.rjust(wide[k]) if k in right else cell.ljust(wide[k]) for k, cell in enumerate(row)).rstrip()
             for row in [head] + rows]
    print(lines[0])
    print('-' * max(len(line) for line in lines))
    for place, line in enumerate(lines[1:]):
        show([line] + (behind[place] if behind else []))


# Rows

def reservation_rows():
    """The lines of qrstat by their columns."""
    columns = ('number', 'name', 'owner', 'state', 'from', 'until', 'slots')
    return [dict(zip(columns, line.split()), line=line) for line in told('qrstat')]


def priorities():
    """The lines of qstat -pri: of each candidate job its normalised priority, urgency and tickets, and their sum."""
    return {line.split()[0]: line.split()[1:] for line in told('qstat -pri')}


def instance_rows():
    """The lines of qstat -f by their columns."""
    rows = []
    for line in told('qstat -f'):
        name, slots, load, state = line.split()
        queue, host = name.split('@')
        used, total = slots.split('/')
        rows.append({'name': name, 'queue': queue, 'host': host, 'used': int(used), 'total': int(total), 'load': load,
                     'state': '' if state == '-' else state, 'line': line})
    return rows


def with_shut(rows):
    """Instances with the state d where qmod -d shut them."""
    for row in rows:
        if row['host'] in shut_hosts(row['queue']):
            row['state'] += 'd'
    return rows


@functools.lru_cache(None)
def shut_hosts(queue):
    """The hosts at which qmod -d shut a queue, looked for once."""
    return frozenset(closed_hosts(queue_lines(queue)))


def booked_slots():
    """The slots that reservations have now, by instance."""
    booked = {}
    running = [row['number'] for row in reservation_rows() if row['state'] == 'r']
    for grant in [grant for number in running for grant in told('qrstat -ar ' + number)[1].split(',')]:
        instance, slots = grant.rsplit('=', 1)
        booked[instance] = booked.get(instance, 0) + int(slots)
    return booked


# Objects

@functools.lru_cache(None)
def shown(option, name):
    """The lines of an object; none where it isn't there."""
    return tuple(tried(request('qconf', option, name)) or ())


def queue_lines(queue):
    """The lines of a queue."""
    return shown('-sq', queue)


def attribute(lines, name):
    """The value of an attribute in these lines, else None."""
    return next((line.split(' ', 1)[1] for line in lines if line.startswith(name + ' ')), None)


def items(value):
    """The items of a list."""
    return [] if value in (None, 'NONE') else value.split(',')


def at_host(value, host):
    """What a value with overrides is at a host: its own override, else that of the first group that has it, else the plain value."""
    plain, own, of_groups = cut_overrides(value)
    return own[host] if host in own else next((there for name, there in of_groups if in_group(host, name)), plain)


@functools.lru_cache(None)
def cut_overrides(value):
    """The plain part of a value, its overrides of hosts (the first of each), and those of groups."""
    plain, bracket, rest = value.partition(',[')
    overrides = re.findall(r'\[([^=\]]+)=([^\]]*)\]', bracket[1:] + rest)
    return plain, dict(reversed(overrides)), [pair for pair in overrides if pair[0].startswith('@')]


def closed_hosts(lines):
    """The hosts at which qmod -d shut a queue of these lines."""
    value = attribute(lines, 'user_lists') or ''
    return re.findall(r'\[([^=\]@]+)=%s\]' % re.escape(CLOSED), value)


def in_group(host, name):
    """Whether a host is in a host group, or in one that this one has."""
    return host in group_members(name)


@functools.lru_cache(None)
def group_members(name):
    """The hosts and groups that are in a host group, and in those in it."""
    seen, left = set(), [name]
    while left:
        members = set(items(attribute(shown('-shgrp', left.pop()), 'hostlist'))) - seen
        seen |= members
        left += [member for member in members if member.startswith('@')]
    return seen


def in_set(name, who, of_group):
    """Whether a user set has a user, or the group of one."""
    entries = items(attribute(shown('-su', name), 'entries'))
    return who in entries or '@' + of_group in entries


# Which instances are meant

def matching_instances(rows, patterns):
    """The instances for which one of these patterns stands: queue, queue@host or queue@@group."""
    return [row for row in rows if any(instance_matches(row['queue'], row['host'], pattern) for pattern in patterns)]


def instance_matches(queue, host, pattern):
    """Whether a pattern stands for an instance."""
    queues, at, hosts = pattern.partition('@')
    if not stands_for(queues, queue):
        return False
    if hosts.startswith('@'):
        return in_group(host, hosts)
    return not at or stands_for(hosts, host)


def has_environment(row, names):
    """Whether an instance has one of these parallel environments."""
    there = items(at_host(attribute(queue_lines(row['queue']), 'pe_list'), row['host']))
    return any(any_stands_for(names, name) for name in there)


def lets_in(row, who):
    """Whether the access lists of an instance let a user in."""
    of_group = group() if who == user() else login_group(who)
    lists, without = (items(at_host(attribute(queue_lines(row['queue']), name), row['host'])) for name in ('user_lists', 'xuser_lists'))
    if any(in_set(name, who, of_group) for name in without):
        return False
    return not lists or any(in_set(name, who, of_group) for name in lists)


def login_group(who):
    """The login group of a user of this machine, else nothing."""
    try:
        return said(group_name(pwd.getpwnam(who).pw_gid))
    except KeyError:
        return ''


def offers(row, asked):
    """Whether an instance has what -l asks for, by what is configured (loads that hosts report aren't told)."""
    return all(offers_item(row, item) for item in asked)


def offers_item(row, item):
    """Whether an instance has what one item of -l asks for."""
    name, equals, value = item.partition('=')
    column = next((column for column in complex_rows() if name in (column['name'], column['shortcut'])), None)
    if column is None:
        fail(1, 'no such attribute: -l %s' % item)
    there = value_at(row, column['name'])
    return there is not None and admits(column, value if equals else 'TRUE', there)


def value_at(row, name):
    """The value that an instance has of an attribute: of the queue, of the host, of all hosts."""
    lines, host = queue_lines(row['queue']), row['host']
    if name in ('qname', 'hostname'):
        return row['queue' if name == 'qname' else 'host']
    levels = [dict(item.split('=', 1) for item in items(at_host(attribute(lines, 'complex_values') or 'NONE', host)))]
    if attribute(lines, name) is not None:
        levels.append({name: at_host(attribute(lines, name), host)})
    for where in (host, 'global'):
        values = items(attribute(shown('-se', where), 'complex_values'))
        levels.append(dict(value.split('=', 1) for value in values))
    return next((level[name] for level in levels if name in level), None)


def admits(column, asked, there):
    """Whether asked RELOP there holds, by the kind of the attribute."""
    kind, relop = column['type'], column['relop']
    if kind in ('INT', 'TIME', 'MEMORY', 'DOUBLE'):
        try:
            left, right = amount(kind, asked), amount(kind, there)
        except (ValueError, IndexError):
            fail(1, 'no value of %s: %s' % (column['name'], asked))
        return {'==': left == right, '!=': left != right, '<': left < right, '<=': left <= right, '>': left > right,
                '>=': left >= right}[relop]
    if kind == 'BOOL':
        same = (asked.upper() in ('TRUE', '1')) == (there == 'TRUE')
    elif kind == 'RESTRING':
        same = stands_for(asked, there)
    else:
        same = asked == there if kind == 'STRING' else asked.lower() == there.lower()
    return same == (relop == '==')


# The gridmaster's files

def site_folder(option=None):
    """The folder of the gridmaster's files: that of -spool, else of the variable GRIDMASTER_SITE where they can be read."""
    folder = setting('GRIDMASTER_SITE')
    if option is None and folder and os.access(os.path.join(path_of(folder), b'spool.a'), os.R_OK):
        return folder
    return option


def site_tables(folder):
    """What is configured and reported, by the gridmaster's files in a folder."""
    from gridmaster_files import NoCluster, configuration, copies
    path = os.fsdecode(path_of(folder))
    if not os.path.exists(os.path.join(path, 'spool.a')):
        fail(1, 'no file spool.a in %s' % folder)
    try:
        return configuration(copies(path))
    except (NoCluster, OSError) as fault:
        fail(1, 'the files in %s can\'t be read: %s' % (folder, fault))


def reported_values(folder):
    """What each host reported, by the gridmaster's files, as texts."""
    kinds = {row['name']: row['type'] for row in complex_rows()}
    hosts = site_tables(folder)['hosts']
    return {host: {name: value_text(kinds.get(name), value) for name, value in row['load'].items()}
            for host, row in hosts.items() if host != 'global'}


def value_text(kind, value):
    """A value of the files as a text."""
    if value[0] == 'Amount':
        return '%.6f' % (value[1] / 1000000) if kind == 'DOUBLE' else str(value[1])
    return str(value[1]).upper() if value[0] == 'Flag' else value[1]
