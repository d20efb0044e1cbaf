#!/usr/bin/env -S python3 -B
"""The answer of `fiolog check` and `live`: whether transitions are lost, where and why. Logs of which it is known how they were made,
also random ones of a model of a link written from docs/PROTOCOL.md, at the CPU, the module and the bus; the sentence of each, its numbers
and its status follow from that. Last line: `N passed, M failed`."""

import csv
import io
import os
import tempfile

from support.answer_words import STYLES, Due, Written
from support.answered import Made
from support.check import Check
from support.fiolog import fiolog, use_library, written
from support.kinds import KINDS, LIKE, LITTLE, LOST as LOSS
from support.stations import FIRST, SECOND, rounds

MORE, LOST, AGAIN, GAP = 8, 4, 2, 1         # C, F, E, G
GOOD, BREACH = 0, 1


def clock(milli):
    """A time of the day, from 07:00 on."""
    return '%02d:%02d:%02d.%03d' % (7 + milli // 3_600_000, milli // 60_000 % 60, milli // 1000 % 60, milli % 1000)


def poll(number):
    """The digits of a poll."""
    return '36%02x' % number


def block(number, stamp, *entries, status=0):
    """The digits of a block: each entry is its input, its state and its time."""
    said = ''.join('%02x%04x' % (named | state << 7, time & 0xffff) for named, state, time in entries)
    return 'b6%02x%02x%s%02x%08x' % (number, len(entries), said, status, stamp)


def configuration(inputs, length):
    """The digits of a configuration that opens inputs with filters of this length, and of its answer."""
    return '33%02x' % inputs + ''.join('%02x%02x%02x' % (named, length, length) for named in range(inputs)), 'b300'


def log(*lines, times=True):
    """A log: each line is the time of the digits in milliseconds, and them."""
    return ''.join('%s%s %s\n' % (clock(time) + ' ' if times else '', '<' if digits[0] == 'b' else '>', digits) for time, digits in lines)


def link(*blocks, above=()):
    """A log with these blocks, each below its poll, one a second."""
    return log(*above, *((1000 * place + 10 * half, digits) for place, digits in enumerate(blocks) for half, digits in enumerate((poll(int(digits[2:4], 16)), digits))))


# The entries of a full block, of 16 inputs.
FULL = [(place % 16, place // 16 % 2, 100 + place // 16 * 10) for place in range(255)]
BLOCKS = [block(5, 1000, (3, 0, 900)), block(6, 2000, (3, 1, 1900), (4, 0, 1950)), block(7, 3000), block(8, 4000, (4, 1, 3500))]
OVER, OVER_AGAIN = (block(number, 1000 * number - 4000, *((named, state, 1000 * number - 4500 + time) for named, state, time in FULL), status=MORE | LOST)
                    for number in (8, 9))
ONCE = 'Nothing is lost: 4 transitions from 07:00:00 to 07:00:03, each once.'
GAPS = 'Nothing is lost in what this log has, %s %% of the time; at %s.'
RESTARTED = 'The module was restarted once; what waited in it then is not recorded.'
# A log, words of the command line, what is said first, and the status.
CASES = {
    'whole': (link(*BLOCKS), (), ONCE, GOOD),
    'the answers alone': (''.join(line + '\n' for line in link(*BLOCKS).split('\n') if '<' in line), (), ONCE, LITTLE),
    'an answer was lost': (log((0, poll(5)), (10, BLOCKS[0]), (20, poll(6)), (30, poll(6)), (1010, block(6, 2000, (3, 1, 1900), status=AGAIN))), (),
                           'Nothing is lost: 2 transitions from 07:00:00 to 07:00:01, each once. 1 answer was lost, and asked for again.', GOOD),
    'an answer is there twice': (link(*BLOCKS[:2], block(6, 2000, (3, 1, 1900), (4, 0, 1950), status=AGAIN), *BLOCKS[2:]), ('--at', 'bus'),
                                 'Nothing is lost: 4 transitions from 07:00:00 to 07:00:04, each once.', GOOD),
    'a poll at the end': (link(*BLOCKS) + log((4000, poll(9))), (), ONCE, GOOD),
    'one transition': (link(BLOCKS[0], block(6, 2000)), (), 'Nothing is lost: 1 transition from 07:00:00 to 07:00:01, once.', GOOD),
    'no transition': (link(block(5, 1000), block(6, 2000)), (), 'Nothing is lost: no transition from 07:00:00 to 07:00:01.', GOOD),
    'one block': (link(BLOCKS[0]), (), 'Too few blocks to say.', GOOD),
    'a damaged poll': (link(*BLOCKS).replace('> 3607', '> 36'), (), ONCE, GOOD),
    'a damaged block': (link(*BLOCKS).replace('< b607', '< b6'), (), GAPS % ('33.3', '1 place at least 1 block is not in it'), LITTLE),
    'above the first poll': (log((0, block(1, 500))) + link(*BLOCKS), ('--start-at-poll',), ONCE, GOOD),
    'F': (link(*BLOCKS[:3], OVER), (), "Transitions are lost at 1 place at least; in line 8, 07:00:03: the module's buffer overflowed, 1.0 s after the poll before.", LOSS),
    'F, in the first block': (link(OVER), (), "Transitions are lost at 1 place at least; in line 2, 07:00:00: the module's buffer overflowed.", LOSS),
    'F twice': (link(*BLOCKS[:3], OVER, OVER_AGAIN), (),
                "Transitions are lost at 2 places at least; first in line 8, 07:00:03: the module's buffer overflowed, 1.0 s after the poll before.", LOSS),
    # The row of docs/PLANNING.md for 16 inputs and a filter of 5, without a drift, and outages of 1,024 / 16 times 5.
    'F, and a configuration': (link(*BLOCKS[:3], OVER, above=((0, configuration(16, 5)[0]), (5, 'b300'))), (),
                               "Transitions are lost at 1 place at least; in line 10, 07:00:03: the module's buffer overflowed, 1.0 s after the poll before. For 16 inputs "
                               'with filter 5 a poll each 79 ms is often enough, and an outage of 320 ms loses nothing (plan).', LOSS),
    'blocks that are not in it': (link(*BLOCKS, block(21, 5000), block(22, 6000)), ('--except', 'advance'), GAPS % ('80.0', '1 place at least 12 blocks are not in it'), GOOD),
    'a block that is not in it': (link(*BLOCKS[:1], *BLOCKS[2:]), ('--except', 'advance'), GAPS % ('50.0', '1 place at least 1 block is not in it'), GOOD),
    'more than half is not in it': (link(*BLOCKS[:1], BLOCKS[3]), ('--except', 'advance'), GAPS % ('0.0', '1 place at least 2 blocks are not in it'), LITTLE),
    'F, and a block that is not in it': (link(*BLOCKS[:2], OVER), ('--except', 'advance'),
                                         "Transitions are lost at 1 place at least; in line 6, 07:00:02: the module's buffer overflowed, 1.0 s after the poll before. "
                                         'Nothing else is lost in what this log has, 50.0 % of the time; at 1 place at least 1 block is not in it.', LOSS),
    'a poll that the module never got': (link(*BLOCKS[:2], block(8, 4000, (4, 1, 3500), status=GAP)), ('--except', 'advance'),
                                         'Nothing is lost: 4 transitions from 07:00:00 to 07:00:02, each once.', GOOD),
    'such a poll, and it is in the log': (link(*BLOCKS[:2]) + log((1500, poll(7)), (2000, poll(8)), (2010, block(8, 4000, (4, 1, 3500), status=GAP))), ('--except', 'advance'),
                                          'Nothing is lost: 4 transitions from 07:00:00 to 07:00:02, each once. 1 poll had no answer.', GOOD),
    'more such polls': (link(*BLOCKS, block(12, 5000, status=GAP)), ('--except', 'advance'), GAPS % ('75.0', '1 place the log does not say it'), GOOD),
    'a load of the counter': (link(*BLOCKS) + log((3500, '3200000000'), (3510, 'b200'), (4000, poll(9)), (4010, block(9, 500)), (5000, poll(10)), (5010, block(10, 1500))), (),
                              GAPS % ('80.0', '1 place the log does not say it'), GOOD),
    'a restart': (link(*BLOCKS, block(9, 500), block(10, 1500)), (), 'Nothing is lost in what this log has, 80.0 % of the time. ' + RESTARTED, LOSS),
    'a restart in a log of few blocks': (link(*BLOCKS[1:2], block(7, 500)), (), 'Nothing is lost in what this log has, 0.0 % of the time. ' + RESTARTED, LOSS),
    'a breach': (link(*BLOCKS, block(9, 5000, (4, 1, 4500))), (),
                 'Nothing is lost in what this log has, 75.0 % of the time. At 1 place entries are not to be believed (below).', BREACH),
    'a breach that is left out': (link(*BLOCKS, block(9, 5000, (4, 1, 4500))), ('--except', 'alternate'),
                                  'Nothing is lost in what this log has, 75.0 % of the time. At 1 place entries are not to be believed.', GOOD),
    'two links': (''.join(KINDS['two links'][0]), LIKE, 'This log is not of one link in order, so nothing is said.', LITTLE),
    'the last line first': (''.join(KINDS['the last line first'][0]), LIKE, 'This log is not of one link in order, so nothing is said.', LITTLE),
    'late answers': (log(*((1000 * number + half, digits) for number in range(5, 9) for half, digits in ((0, poll(number)), (5, poll(number)), (
        10, block(number, 1000 * number)), (20, block(number, 1000 * number, status=AGAIN))))), ('--late-answers',),
                     'This log is not of one link in order, so nothing is said.', GOOD),
    'the commands alone': (log(*((1000 * number, poll(number)) for number in range(8))), (), 'Too few blocks to say.', LITTLE),
}


def check_cases(check):
    """What is said first, and the status."""
    for name, (text, words, said, status) in CASES.items():
        done = fiolog('check', *words, text=text)
        check.equal(name, (said, status), (done.out.splitlines()[0], done.status))
        found = fiolog('check', '--json', *words, text=text)
        check.equal('with --json: ' + name, (said, status), (found.summary()['answer']['says'], found.status))


# What is known of the second case with F and a block that is not in it: 2 + 1 + 255 entries in 3 blocks.
NUMBERS = {'recorded': 258, 'blocks': 3, 'lost_places': 1, 'missing_places': 1, 'missing_blocks': 1, 'passed_over': 0, 'unknown': 0, 'restarts': 0, 'disbelieved': 0,
           'whole_share': 0.5, 'longest_pause_s': 1.0, 'first': 7 * 3600 + 0.01, 'last': 7 * 3600 + 2.01, 'span_s': 2.0,
           'places': [{'line': 6, 'time': 7 * 3600 + 2.01, 'kind': 'missing', 'number': 8, 'lost': True, 'missing_blocks': 1}]}
COLUMNS = 'recorded', 'lost_places', 'missing_blocks', 'passed_over', 'restarts', 'whole_share', 'span_s'
# What the sum of several logs does not have.
OF_ONE = 'first', 'last', 'span_s', 'places'


def check_numbers(check, folder):
    """The object of one log, and of several the objects, the rows and the table; of a log of which nothing is said there are none."""
    text, words, _, _ = CASES['F, and a block that is not in it']
    found = fiolog('check', '--json', *words, text=text).summary()['answer']
    check.equal('an object', NUMBERS, {name: one for name, one in found.items() if name != 'says'})
    check.equal('of two links there is none', {'says', 'places'}, set(fiolog('check', '--json', *LIKE, text=CASES['two links'][0]).summary()['answer']))
    paths = [written(folder, name, text) for name, text in (('whole', CASES['whole'][0]), ('lost', text))]
    *rows, last = fiolog('check', '--json', *words, *paths).objects()
    check.equal('objects of several', [('lost', found), ('whole', 4)], [(os.path.basename(rows[0]['file']), rows[0]['answer']),
                                                                      (os.path.basename(rows[1]['file']), rows[1]['answer']['recorded'])])
    total = {name: 262 if name == 'recorded' else 7 if name == 'blocks' else NUMBERS[name] for name in NUMBERS if name not in OF_ONE}
    check.equal('and their sum', {**total, 'whole_share': 0.8}, last['summary']['answer'])
    table = list(csv.DictReader(io.StringIO(fiolog('check', '--csv', *words, *paths).out)))
    check.equal('--csv', [['258', '1', '1', '0', '0', '0.5', '2.0'], ['4', '0', '0', '0', '0', '1.0', '3.0']], [[row[name] for name in COLUMNS] for row in table])
    both = fiolog('check', '--csv', *LIKE, written(folder, 'both', CASES['two links'][0])).out
    check.equal('--csv of two links', [[''] * len(COLUMNS)], [[row[name] for name in COLUMNS] for row in csv.DictReader(io.StringIO(both))])
    done = fiolog('check', *words, *paths)
    check.equal('a table', (True, LOSS), ('line 6: transitions are lost' in done.out.splitlines()[2], done.status))


def check_order(check, folder):
    """Of several logs the status is the first of 1, 5, 4 and 0 that one has."""
    names = {BREACH: 'a breach', LOSS: 'F', LITTLE: 'more than half is not in it', GOOD: 'whole'}
    paths = {status: written(folder, str(status), CASES[name][0]) for status, name in names.items()}
    worst = list(names)
    for place, status in enumerate(worst):
        for words in ((), ('--json',), ('--csv',)):
            for order in (worst[place:], worst[:place - 1:-1] if place else worst[::-1]):
                done = fiolog('check', '--except', 'advance', *words, *[paths[one] for one in order])
                check.equal('the status of %s %s' % (' '.join(map(str, order)), ''.join(words)), status, done.status)
    for status, name in names.items():
        text, words, said, _ = CASES[name]
        done = fiolog('live', '-q', *words, '--fifo', paths[status])
        check.equal('live: ' + name, (status, said), (done.status, [line for line in done.out.splitlines() if not line.startswith('line ')][0]))
    text = CASES['F'][0]
    for command, *words in (('record',), ('stats',), ('decode',), ('convert', '--to', 'frames')):
        check.equal('%s keeps its status' % command, GOOD, fiolog(command, *words, text=text).status)


def seconds(first, last):
    """Two times of a log in seconds from 07:00 on, and how far they are apart."""
    return 7 * 3600.0 + first, 7 * 3600.0 + last, float(last - first)


def check_stations(check, folder):
    """Each station has its line; places name it."""
    parts = rounds(8, FIRST, SECOND)
    del parts[9]        # block 4 of the second one, with its poll
    done = fiolog('check', '--except', 'advance', text=''.join(parts))
    gap = 'Nothing is lost in what this log has, 71.4 % of the time; at 1 place at least 1 block is not in it.'
    check.equal('stations', (['address 14: Nothing is lost: no transition.', 'address 15: ' + gap], GOOD), (done.out.splitlines()[:2], done.status))
    found = fiolog('check', '--json', '--except', 'advance', text=''.join(parts)).summary()['answer']
    check.equal('stations in one object', ('\n'.join(done.out.splitlines()[:2]), 15, [(22, '15', 5)]),
                (found['says'], found['blocks'], [(place['line'], place['station'], place['number']) for place in found['places']]))
    # A line each second: blocks of the first station are in the lines 2 to 28, those of the second one in 4 to 30.
    text = ''.join(clock(1000 * place) + ' ' + line for place, line in enumerate(''.join(parts).splitlines(True)))
    found = fiolog('check', '--json', '--except', 'advance', text=text).summary()['answer']
    check.equal('the numbers of each station', {'14': (8, 0, 1.0, *seconds(1, 27)), '15': (7, 1, 0.769, *seconds(3, 29))},
                {address: tuple(map(row.get, ('blocks', 'missing_blocks', 'whole_share', 'first', 'last', 'span_s'))) for address, row in found['stations'].items()})
    check.equal('the times of all', seconds(1, 29), tuple(map(found.get, ('first', 'last', 'span_s'))))
    check.equal('no time is known', {None}, {row[name] for row in [fiolog('check', '--json', text=''.join(parts)).summary()['answer']]
                                             for row in [row, *row['stations'].values()] for name in ('first', 'last', 'span_s')})


def check_times(check, folder):
    """Times are said in whole seconds, since a start with their unit; a place of merged files with its file."""
    for front, first, last in (('2026-11-22 07:15:0%d.126', '2026-11-22 07:15:00', '2026-11-22 07:15:03'), ('%d.763', '0.763 s', '3.763 s')):
        lines = ['%s %s %s\n' % (front % int(digits[6:8]), side, octets) for digits, side, octets in map(str.split, link(*BLOCKS).splitlines())]
        check.equal('times: ' + front, 'Nothing is lost: 4 transitions from %s to %s, each once.' % (first, last), fiolog('check', text=''.join(lines)).out.splitlines()[0])
    lines = CASES['F'][0].splitlines(True)
    paths = [written(folder, name, ''.join(line for line in lines if side in line)) for name, side in (('tx', '>'), ('rx', '<'))]
    said = fiolog('check', '--merge', *paths).out.splitlines()[0]
    check.equal('merged files', CASES['F'][2].replace('in line 8', 'in %s line 4' % paths[1]), said)


def check_made(check, count):
    """Of random logs in ten styles of lines what is said, the numbers, and the status."""
    for seed in range(count):
        log = Written(Made(seed), list(STYLES)[seed % len(STYLES)])
        done = fiolog('check', '--json', *log.words, text=log.text)
        found = done.summary()['answer']
        check.equal('seed %d' % seed, log.due, Due(found['says'], {name: found[name] for name in log.due.numbers}, done.status))


def main():
    check = Check(logs=(30, 300, 1000))
    use_library(check, 'the answer')
    check_cases(check)
    check_made(check, check.given.logs)
    with tempfile.TemporaryDirectory() as folder:
        for part in check_numbers, check_order, check_stations, check_times:
            part(check, folder)
    check.end()


main()
