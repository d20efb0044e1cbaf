"""The options of several commands, and the values of the command line: each function gives one that reads a word, or refuses it with
its range."""

import argparse
import os

from fio2070.constants import WIRE_CONTROL

from .output import Refused
from .protocol import BLOCK_ENTRIES, CONTENT_RULES, MOST_WAITING, RULES, SOURCES, STANDARD_WAITING

FORMS = 'auto', 'frames', 'transcript'
# What a line carried.
OCTETS, BITS, HIGH_FIRST = LINES = 'octets', 'bits', 'bits-high-first'
# More jobs than that are a mistake.
MOST_ASKED = 1_000_000
NAMES = [name for rules in (RULES, CONTENT_RULES) for name, _ in rules.values()]
# The rules of which no behaviour is of TEES 2009.
OWN = [name for name, (behaviour, _) in SOURCES.items() if behaviour == 'own profile']


def number_in(low, high):
    """A number from low to high."""
    def read(text):
        number = int(text)
        if not low <= number <= high:
            raise ValueError(text)
        return number
    read.__name__ = 'number from %d to %d' % (low, high)
    return read


def line_addresses(text):
    """The addresses of the frames of a line that are judged, each with its control octet, both None for any."""
    return [_line_address(word) for word in text.split(',')]


def _line_address(text):
    """One address, and its control octet."""
    if text == 'any':
        return None, None
    if len(text) not in (2, 4) or not all(sign in '0123456789abcdefABCDEF' for sign in text):
        raise argparse.ArgumentTypeError('%r is no address, such as 14, no address and control octet, such as 1483, and not `any`' % text)
    octets = bytes.fromhex(text)
    return octets[0], octets[-1] if len(octets) > 1 else WIRE_CONTROL


def samples(text):
    """Sample lines of a log: this one, or those of a file that is named after `@`."""
    if not text.startswith('@'):
        return os.fsencode(text)
    try:
        with open(text[1:], 'rb') as file:
            return file.read()
    except OSError as fault:
        raise argparse.ArgumentTypeError('%s: %s' % (text[1:], fault.strerror)) from None


# The options of several commands.
_SHARED = {
    'files': {'nargs': '*', 'default': ['-'], 'metavar': 'FILE', 'help': 'logs; - is standard input, the default'},
    '--format': {'choices': FORMS, 'default': 'auto', 'metavar': 'NAME',
                 'help': 'auto (the default); frames or transcript: as `fio2070 show` and `check` read lines'},
    '--pattern': {'metavar': 'REGEX', 'help': 'a regular expression with the group octets (hexadecimal digits), and if you like time and dir'},
    '--line': {'choices': LINES, 'default': '', 'metavar': 'FORM',
               'help': 'the file is what a line carried: octets, or bits (bits-high-first), one a clock, as a text of 0 and 1 or eight to an octet'},
    '--address': {'type': line_addresses, 'action': 'extend', 'metavar': 'HEX',
                  'help': 'the address of the frames of a line that are judged (14), with or without the control octet (1483), several (14,15), '
                          'or any'},
    '--like': {'action': 'append', 'type': samples, 'default': [], 'metavar': 'LINE',
               'help': 'a line with a message as this log writes it, such as "TX 36 05", or @FILE for such lines; may be given again'},
    '--merge': {'action': 'store_true', 'help': 'read the files as one log, in the order of their times: such as one file of each channel'},
    '-v --verbose': {'action': 'store_true', 'help': 'name each line that is skipped, and why'},
    '-q --quiet': {'action': 'store_true', 'help': 'write only errors to standard error'},
    '--at': {'choices': ('auto', 'cpu', 'module', 'bus'), 'default': 'auto',
             'help': 'where the log was taken; auto: at the CPU where directions say so, else on the bus'},
    '--start-at-poll': {'action': 'store_true', 'help': 'leave out what comes before the first poll'},
    '--whole': {'action': 'store_true', 'help': 'the log begins at the start of both ends: then more faults can be found'},
    '--limits': {'nargs': 2, 'type': int, 'default': (BLOCK_ENTRIES, STANDARD_WAITING), 'metavar': ('ENTRIES', 'WAITING'),
                 'help': 'of the module: the most entries of a block, and the most that wait (%d %d)' % (BLOCK_ENTRIES, STANDARD_WAITING)},
    '--except': {'action': 'append', 'choices': NAMES, 'default': [], 'dest': 'excepted', 'metavar': 'RULE',
                 'help': 'leave out breaches of this rule, and count them; may be given again'},
    '--late-answers': {'action': 'store_true', 'help': 'leave out answers that came late or twice, and count them'},
    '--no-loads': {'action': 'store_true', 'help': 'the CPU never loads the counter: then more faults can be found below damage'},
    '-r --recursive': {'action': 'store_true', 'help': 'read all files below the folders that are named'},
    '--jobs': {'type': number_in(1, MOST_ASKED), 'metavar': 'N', 'help': 'with several logs: read this many at a time (all processors)'},
}


def add(parser, *names):
    """Adds options that other commands have too."""
    for name in names:
        parser.add_argument(*name.split(), **_SHARED[name])


def add_reading(parser):
    """Adds the options of all that read logs."""
    add(parser, 'files', '--format', '--pattern', '--line', '--address', '--like', '--merge', '-v --verbose', '-q --quiet')


def add_place(parser):
    """Adds the options of where and when a log was taken, and of the module's limits."""
    add(parser, '--at')
    add(parser.add_mutually_exclusive_group(), '--start-at-poll', '--whole')
    add(parser, '--limits')


def rules_of(option):
    """What the rules that judge a log are given, by the options of the command line. Raises Refused if the limits are none."""
    given = {name: getattr(option, name) for name in ('at', 'whole', 'limits', 'late_answers', 'no_loads') if hasattr(option, name)}
    entries, waiting = given.get('limits', (1, 1))
    if not (1 <= entries <= BLOCK_ENTRIES and 1 <= waiting <= MOST_WAITING):
        raise Refused('--limits: a block has 1 to %d entries, and 1 to %d wait' % (BLOCK_ENTRIES, MOST_WAITING))
    return {**given, 'excepted': [*getattr(option, 'excepted', ()), *OWN * getattr(option, 'tees', False)],
            'with_content': getattr(option, 'rules', 'all') == 'all'}
