"""The options of qsub, qalter and qrsub: which are sent, which have no effect, and how several of one add up."""
import re

from gridmaster_words.asking import request
from gridmaster_words.causes import option_causes
from gridmaster_words.dates import moment
from gridmaster_words.running import COMMAND, fail, say

SENT = {'-N': 1, '-l': 1, '-q': 1, '-pe': 2, '-hold_jid': 1, '-hold_jid_ad': 1, '-p': 1, '-js': 1, '-a': 1, '-dl': 1, '-P': 1,
        '-R': 1, '-A': 1}
SENT_BY_QSUB = dict(SENT, **{'-t': 1, '-h': 0, '-ar': 1})
SENT_BY_QALTER = dict(SENT, **{'-ot': 1})
WITHOUT_EFFECT = {'-cwd': 0, '-V': 0, '-notify': 0, '-o': 1, '-e': 1, '-j': 1, '-S': 1, '-r': 1, '-m': 1, '-M': 1, '-v': 1, '-wd': 1,
                  '-i': 1, '-w': 1, '-now': 1, '-shell': 1, '-ac': 1, '-dc': 1, '-sc': 1, '-c': 1, '-ckpt': 1, '-display': 1,
                  '-jsv': 1, '-masterq': 1, '-tc': 1, '-binding': 1, '-pty': 1, '-verify': 0}
AS_IT_IS_ANYWAY = {'-j': 'no?', '-m': 'n', '-w': '[nw]', '-now': 'no?', '-r': 'no?', '-pty': 'no?', '-S': '(/usr)?(/bin/)?sh'}
ADDED_UP = ('-l', '-q', '-hold_jid', '-hold_jid_ad')
ADDED_OVER_LEVELS = ('-l', '-hold_jid', '-hold_jid_ad')


class Chosen:
    """The options that count. Later levels (request files, script, command line) replace, or add where Grid Engine does."""

    def __init__(self, sent, own, without=WITHOUT_EFFECT, empty_hold=()):
        self.takes = dict(without, **dict(own, **sent))
        self.sent, self.without, self.empty_hold = sent, without, list(empty_hold)
        self.words, self.levels, self.own, self.left_out = {}, {}, {}, []

    def read(self, words, level, where='', tell=True):
        """Takes the options at the front of these words, and gives the rest."""
        pairs, rest = self.pairs(words, where)
        for option, given in pairs:
            self.take(option, given, level, where, tell)
        return rest

    def pairs(self, words, where=''):
        """The options at the front of these words, each with the words behind it, and the rest."""
        pairs, words, soft = [], list(words), False
        while words and words[0].startswith('-') and words[0] not in ('-', '--'):
            option = words.pop(0)
            if option in ('-soft', '-hard'):
                soft = option == '-soft'
            elif option not in self.takes:
                fail(2, 'unknown option %s%s; see %s -help' % (option, where, COMMAND))
            else:
                given = self.given(option, words, where)
                pairs.append(('-soft', [option] + given) if soft and option in ('-l', '-q') else (option, given))
        return pairs, words

    def given(self, option, words, where):
        """The words behind an option, which are taken away."""
        count = self.takes[option]
        if option == '-binding' and words[:1] and words[0] in ('env', 'pe', 'set'):
            count = 2
        if len(words) < count:
            fail(2, 'a word is missing behind %s%s' % (option, where))
        given = words[:count]
        del words[:count]
        return given

    def take(self, option, given, level, where, tell):
        """Keeps an option, by what it is."""
        if option == '-clear':
            self.words, self.levels, self.own, self.left_out = {}, {}, {}, []
        elif option in self.sent:
            self.keep(option, given[:-1] + [self.sendable(option, word, where) for word in given[-1:]], level)
        elif option == '-soft' or option in self.without:
            self.leave_out(option, given, tell)
        else:
            self.own[option] = given[0] if given else True

    def keep(self, option, given, level):
        """Keeps an option that is sent: it replaces what is there or adds to it."""
        adds = option in ADDED_OVER_LEVELS or option in ADDED_UP and self.levels.get(option) == level
        if option in ('-hold_jid', '-hold_jid_ad') and given == ['']:
            given = self.empty_hold
        if given or not self.sent[option]:
            self.words[option] = (self.words.get(option, []) if adds else []) + given
            self.levels[option] = level

    def sendable(self, option, word, where):
        """The last word behind an option as the gridmaster takes it: dates and slot ranges in its form."""
        if option in ('-a', '-dl', '-e'):
            return moment(option + where, word)
        if option == '-pe' and re.fullmatch(r'[\d,-]+', word) and re.search(r'\d', word):
            return slot_range(word, where)
        return word

    def leave_out(self, option, given, tell):
        """Notes an option that has no effect, unless it asks for what is done anyway."""
        if option == '-verify' or option == '-w' and given[0][:1] in ('v', 'p'):
            fail(2, '%s would submit nothing, which the gridmaster has no form for' % ' '.join([option] + given))
        if tell and not (given and re.fullmatch(AS_IT_IS_ANYWAY.get(option, '(?!)'), given[0])):
            self.left_out.append(' '.join([option] + given))

    def tell_left_out(self):
        """A word on what was left out."""
        if self.left_out:
            say('left out, without effect here: ' + ', '.join(dict.fromkeys(self.left_out)))

    def line(self, command, rest):
        """The line of the request: the command, its options and the other words."""
        words = [command]
        for option, given in self.words.items():
            words += [option, ','.join(given)] if option in ADDED_UP else [option] + given
        return request(*words + list(rest))

    def causes(self, code):
        """The options that a refusal of this code may speak of."""
        return [cause for option, given in self.words.items() for cause in option_causes(code, option, given)]


def says_yes(option, word):
    """Whether the word behind an option says yes."""
    if word not in ('y', 'yes', 'n', 'no'):
        fail(2, '%s %s: y or n' % (option, word))
    return word[0] == 'y'



def slot_range(text, where):
    """A list of slot ranges as the one range that it comes to; the greater end may stand first."""
    spans = sorted(slot_span(item, '-pe %s%s' % (text, where)) for item in text.split(','))
    low, high = spans[0]
    for span in spans[1:]:
        if span[0] > high + 1:
            fail(2, '-pe %s%s: the gridmaster takes one range of slots, without a gap' % (text, where))
        high = max(high, span[1])
    return str(low) if low == high else '%d-%d' % (low, high)


def slot_span(item, option):
    """The ends of one item of such a list."""
    parts = re.fullmatch(r'(\d{0,18})(-?)(\d{0,18})', item)
    if not parts or not item.strip('-'):
        fail(2, option + ': no slot range')
    low, dash, high = parts.groups()
    return sorted([int(low or 1), int(high or 1000000)]) if dash else [int(low)] * 2


def line_words(line, where):
    """The words of a line of options: quotes are taken off, and a word that begins with # begins a comment."""
    words, word, quote = [], None, ''
    for byte in line:
        if quote:
            word, quote = (word, '') if byte == quote else (word + byte, quote)
        elif byte in '\'"':
            word, quote = word or '', byte
        elif byte in ' \t\r\n':
            words += [] if word is None else [word]
            word = None
        elif byte == '#' and word is None:
            break
        else:
            word = (word or '') + byte
    if quote:
        fail(2, 'a quote without its end%s' % where)
    return words + ([] if word is None else [word])
