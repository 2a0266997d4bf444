"""Holds of jobs: what qhold sets and qrls releases. The name of the command says which."""
from gridmaster_words.asking import request
from gridmaster_words.jobs import target_causes, tell_jobs
from gridmaster_words.names import user_list
from gridmaster_words.running import COMMAND, fail

USAGE = """
usage: COMMAND [-h LETTERS] JOB...                VERB holds of jobs
       COMMAND [-h LETTERS] -u USER,... [JOB...]  of jobs of these users, all of them where no job is given
       COMMAND -help                              this text

LETTERS are one or more of u (user), o (operator), s (system), else u.
JOB is a number, or a name or pattern of one's own live jobs (of the users of -u).
""".replace('COMMAND', COMMAND).replace('VERB', 'releases' if COMMAND == 'qrls' else 'sets')


def read(words):
    """The letters, the users and the jobs."""
    letters, users, jobs = None, None, []
    words = list(words)
    while words:
        word = words.pop(0)
        if word == '-t':
            fail(2, '-t: a hold here is of a whole job')
        if word in ('-h', '-u'):
            if not words:
                fail(2, 'a word is missing behind %s' % word)
            letters, users = (words.pop(0), users) if word == '-h' else (letters, user_list(words.pop(0)))
        elif word.startswith('-'):
            fail(2, 'unknown option %s; see %s -help' % (word, COMMAND))
        else:
            jobs.append(word)
    if not jobs and users is None:
        fail(2, 'no job is named; see %s -help' % COMMAND)
    return letters, users, jobs


def causes(code, letters, jobs):
    """What a refusal may speak of."""
    if code == 11 and letters is not None and letters.strip('uos'):
        return ['-h ' + letters]
    found = target_causes(code, jobs)
    return found + (['-h ' + letters] if code == 15 and letters and letters.strip('u') else [])


def main(words):
    """Holds or releases."""
    letters, users, jobs = read(words)
    options = [] if letters is None else ['-h', letters]
    tell_jobs(lambda part: request(COMMAND, *options, *part), lambda code, part: causes(code, letters, part), jobs, users)

