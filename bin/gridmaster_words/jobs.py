"""Jobs: the lines of qstat, and those that are meant by numbers, names, patterns and users."""
import itertools
import re

from gridmaster_words.asking import accepted, asked, show, told, tried
from gridmaster_words.causes import FORM
from gridmaster_words.names import any_stands_for, stands_for, user
from gridmaster_words.running import fail

# A pattern that stands for no job's name.
NO_JOB = '[/]'


def job_rows():
    """The lines of qstat by their columns."""
    columns = ('number', 'name', 'owner', 'state', 'time', 'queue', 'slots', 'tasks')
    return [dict(zip(columns, line.split()), line=line) for line in told('qstat')]


def grouped(rows, column):
    """Lines by the value of a column."""
    groups = {}
    for row in rows:
        groups.setdefault(row[column], []).append(row)
    return groups


def job_details(number):
    """What qstat -j tells of a job; empty where it isn't live."""
    return dict(line.partition(' ')[::2] for line in tried('qstat -j ' + number) or [])


def tell_jobs(line, causes, words, users=None, tasks=None):
    """Sends the request line(targets) on the jobs that are meant, in parts where they are many, and prints the replies.

    Where they are named by names or users, and one of them is gone when the request comes, they are looked up again.
    """
    by_number = users is None and all(item[:1].isdigit() for word in words for item in word.split(','))
    for last in (by_number, False, True):
        if tell_targets(line, causes, job_targets(words, users, tasks), last):
            return


def tell_targets(line, causes, targets, last):
    """Sends the request on these jobs, and prints the replies. Not to its end where one of them is gone, unless it is the last time."""
    for part in parts_of(targets):
        reply = asked(line(part))
        if reply[0] == 14 and not last:
            return False
        show(accepted(reply, lambda code, part=part: causes(code, part)))
    return True


def parts_of(targets):
    """Targets in parts that a line of a request holds."""
    most = max(1, 50000 // max([1] + [len(target) + 1 for target in targets]))
    return [targets[at:at + most] for at in range(0, len(targets), most)]


def job_targets(words, users, tasks):
    """The jobs that are meant: numbers stand as they are, names and patterns for the live jobs of these users, else of who asks."""
    items = [item for word in words for item in word.split(',')]
    if users is None and all(item[:1].isdigit() for item in items):
        targets = items
    else:
        targets = found_targets(items or ['*'], users)
    return [target + '.' + tasks if tasks else target for target in targets]


def found_targets(items, users):
    """The numbers of live jobs for which these items and users stand."""
    owned = [row for row in job_rows() if any_stands_for(users or [user()], row['owner'])]
    targets = []
    for item in items:
        number = re.match(r'\d*', item).group()
        if number and users is None:
            targets.append(item)
            continue
        meant = [row['number'] for row in owned if (row['number'] == number if number else stands_for(item, row['name']))]
        if not meant:
            fail(1, 'no live job %s of %s' % (item, ','.join(users or [user()])))
        targets += [item if number else name for name in dict.fromkeys(meant)]
    return list(dict.fromkeys(targets))


def target_causes(code, targets):
    """The jobs that a refusal of this code may speak of."""
    if code == 11:
        return [target for target in targets if not re.fullmatch(r'\d+(\.%s)?' % FORM['-t'], target)]
    if code not in (14, 15, 17):
        return []
    rows = grouped(job_rows(), 'number')
    return [target for target in targets if target_is_cause(code, target, rows.get(target.split('.')[0], []))]


def target_is_cause(code, target, rows):
    """Whether a refusal of this code may speak of a job with these lines of qstat."""
    if code == 14:
        return not rows or '.' in target and not any(has_task(target.split('.')[1], row['tasks']) for row in rows)
    if code == 15:
        return bool(rows) and rows[0]['owner'] != user()
    return any(row['state'] in ('r', 'dr') for row in rows)


def has_task(wanted, tasks):
    """Whether a range of tasks has one of the tasks of a line of qstat, where - is the one task of a job that is no array."""
    spans = task_spans(wanted)
    return any(number in span for number in task_numbers('1' if tasks == '-' else tasks) for span in spans)


def task_spans(text):
    """A set of tasks as it is printed, ranges joined by commas; a range can be greater than what may be counted out."""
    return [task_span(item) for item in text.split(',')]


def task_span(item):
    """One range of such a set; one that isn't well formed has no task."""
    parts = re.fullmatch(r'(\d{1,18})(?:-(\d{1,18})(?::(\d{1,18}))?)?', item)
    first, last, step = parts.groups() if parts else ('1', '0', None)
    return range(int(first), int(last or first) + 1, int(step or 1) or 1)


def task_numbers(text):
    """The numbers of such a set."""
    return itertools.chain.from_iterable(task_spans(text))
