"""Requests by gq and their replies. A refusal ends the command with a word on what it may speak of."""
import os
import re
import subprocess

from gridmaster_words.names import group, user
from gridmaster_words.running import FOLDER, fail, said, setting

PATIENCE = 3600  # seconds for a reply, since gq waits without a limit


def program(variable, name):
    """A program: that of a variable, else the one beside these commands, else the one on the path."""
    beside = os.path.join(FOLDER, name)
    return os.environ.get(variable) or (beside if os.access(beside, os.X_OK) else name)


def ask(text):
    """Sends one request and gives the code and the lines of its reply."""
    port = setting('GRIDMASTER_PORT', 'SGE_QMASTER_PORT') or '6444'
    client = program('GQ', 'gq')
    try:
        reply = subprocess.run([client, port, user(), group()], input=text.encode('latin-1'), stdout=subprocess.PIPE, timeout=PATIENCE)
    except subprocess.TimeoutExpired:
        raise NoAnswer(port) from None
    except OSError as fault:
        fail(127, 'the program gq (%s) can\'t be run: %s' % (said(client), fault.strerror))
    if reply.returncode == 2:
        fail(2, 'no port, user or group, or a request that is too long: %s %s %s' % (port, user(), group()))
    if reply.returncode == 9:
        raise NoAnswer(port)
    if reply.returncode not in (0, 1):
        fail(reply.returncode if reply.returncode > 0 else 1, 'gq ended with %d' % reply.returncode)
    lines = reply.stdout.decode('latin-1').split('\n')
    head = re.fullmatch(r'(\d{1,9}) \d+', lines[0])
    if head is None or not lines[1:]:
        raise NoAnswer(port)
    return int(head.group(1)), lines[1:-1]


class NoAnswer(SystemExit):
    """No gridmaster answered. Where nobody waits for one, the command ends with 9."""

    def __init__(self, port):
        super().__init__(9)
        self.text = 'no answer from a gridmaster at port %s of this machine' % port


def asked(text):
    """The code and the lines of a reply; without an answer the command ends."""
    try:
        return ask(text)
    except NoAnswer as silence:
        fail(9, silence.text)


def told(text, causes=None):
    """The lines of an accepted request. A refused one ends the command; causes(code) gives the words that it may speak of."""
    return accepted(asked(text), causes)


def accepted(reply, causes):
    """The lines of a reply that accepts."""
    code, lines = reply
    if code:
        found = causes(code) if causes else []
        fail(1, 'denied: %s (code %d)%s' % (lines[0], code, ': ' + ', '.join(dict.fromkeys(found)) if found else ''))
    return lines


def tried(text):
    """The lines of an accepted request, None where it was refused."""
    code, lines = asked(text)
    return None if code else lines


def show(lines):
    """Prints lines."""
    for line in lines:
        print(line)


def quoted(word):
    """A word as it stands in a request: in quotes where it has to be."""
    if re.search(r'[^\t -~]', word):
        fail(2, 'a word has a byte that a request can\'t have (a line feed, or one that isn\'t ASCII): %s' % word)
    if word and word[0] not in '\'"' and not re.search(r'[ \t]', word):
        return word
    quote = next((sign for sign in '"\'' if sign not in word), None)
    if quote is None:
        fail(2, 'a word has blanks and both quotes: %s' % word)
    return quote + word + quote


def request(*words):
    """Words as the line of a request."""
    return ' '.join(quoted(word) for word in words)
