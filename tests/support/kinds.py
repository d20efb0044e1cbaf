"""Logs of other kinds than that of one link in order, and what is said of them."""

import os
import runpy

from support.tables import TOP

# The status of a log of which little could be judged, and of one in which transitions are lost.
LITTLE, LOST = 4, 5
SIGNS = runpy.run_path(os.path.join(TOP, 'bindings', 'python', 'fiolog', 'log_words.py'))['SIGNS']


# Short messages alone show no form: of logs of few of them the lines are given.
LIKE = '--like', 'TX 36 05', '--like', 'RX B6 05 00 00 00 00 00 01'


def polls(*numbers):
    """Polls for these numbers, as lines."""
    return ''.join('TX 36 %02X\n' % number for number in numbers)


def blocks(*numbers):
    """Empty blocks with these numbers, as lines."""
    return ''.join('RX B6 %02X 00 00 00 00 00 %02X\n' % (number, number) for number in numbers)


def of_other_end(line):
    """A line as the other end writes it."""
    return {'TX': 'RX', 'RX': 'TX'}[line[:2]] + line[2:]


NUMBERS = range(5, 17)
LINES = [line for number in NUMBERS for line in (polls(number), blocks(number))]
# A log, and the sign that holds of it.
KINDS = {
    'one link in order': (LINES, ''),
    'each frame twice': ([line * 2 for line in LINES], 'twice'),
    # Each line of the other end repeats the frame above: it is a copy, and the log that of one end.
    'the logs of both ends': ([line + of_other_end(line) for line in LINES], ''),
    'the last line first': (LINES[::-1], 'reversed'),
    'two links': ([line for number in NUMBERS for line in (polls(number), blocks(number), polls(number + 90), blocks(number + 90))],
                  'two links'),
    'answers alone, each twice': ([blocks(number) * 2 for number in NUMBERS], 'twice'),
}


def full(number, place):
    """A block with an entry, which input 12 has alternately, as a line."""
    return 'RX B6 %02X 01 %02X 00 %02X 00 00 00 00 %02X\n' % (number, 0x0c + 0x80 * (place % 2), place, place)


def left_out(numbers, which):
    """A log in which each block has an entry, but only those are there whose places are in `which`."""
    return ''.join(polls(number) + ''.join(full(number, at) for at, one in enumerate(which) if one == place) for place, number in enumerate(numbers))


# The places of blocks: each third one, three of four, and four of five.
THIRDS, QUARTERS, FIFTHS = range(2, 24, 3), [place for place in range(20) if place % 4], [place for place in range(25) if place % 5]
# Logs without some blocks: how many rules are broken, and the status if it is said that blocks without entries are left out.
LEFT_OUT = {
    'each third block': (left_out(range(5, 29), THIRDS), 0, LITTLE),
    'each third block, over 255': (left_out([*range(250, 256), *range(18)], THIRDS), 0, LITTLE),
    'each third block, and a poll that is sent again': (polls(5) + left_out(range(5, 29), THIRDS), 0, LITTLE),
    'three of four blocks': (left_out(range(5, 25), QUARTERS), 0, 0),
    # One breach in three polls: below it the rules begin anew with the next poll.
    'each third block, and one is empty': (left_out(range(5, 29), THIRDS) + polls(29) + blocks(29), 8, None),
    'each third block, and a poll for a number that is not the next one': (left_out(range(5, 29), THIRDS) + polls(30) + polls(40) + full(40, 9), 9, None),
    'four of five blocks': (left_out(range(5, 30), FIFTHS), 5, None),
}
