"""How a command runs and ends: its words and variables, its word on standard error, its status.

A text is held as one character for each byte, so that bytes of any coding pass as they are.
"""
import os
import sys

COMMAND = os.path.basename(sys.argv[0])
FOLDER = os.path.dirname(os.path.realpath(sys.argv[0]))


def said(text):
    """A text of the system as one character for each byte."""
    return os.fsencode(text).decode('latin-1')


def path_of(text):
    """Such a text as the name of a file."""
    return text.encode('latin-1')


def say(text):
    """A word on standard error."""
    sys.stdout.flush()
    sys.stderr.write('%s: %s\n' % (COMMAND, text))


def fail(status, text):
    """Ends the command with a status and a word."""
    say(text)
    sys.exit(status)


def setting(*names):
    """The first of these variables that is set and isn't empty, else None."""
    return next((said(os.environ[name]) for name in names if os.environ.get(name)), None)


def run(main, usage):
    """Runs a command: -help is answered here, and an interrupt or a reader that has left ends it without a trace of Python."""
    sys.stdout.reconfigure(encoding='latin-1')
    sys.stderr.reconfigure(encoding='latin-1', errors='replace')
    words = [said(word) for word in sys.argv[1:]]
    try:
        if words[:1] in (['-help'], ['--help']):
            sys.stdout.write(usage.lstrip('\n'))
            status = 0
        else:
            status = main(words) or 0
        sys.stdout.flush()
    except BrokenPipeError:
        os.dup2(os.open(os.devnull, os.O_WRONLY), 1)
        status = 0
    except KeyboardInterrupt:
        status = 130
    sys.exit(status)
