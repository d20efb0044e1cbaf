#!/usr/bin/env -S python3 -B
"""Damaged logs of the proved ends: one answer in fifty is cut in six ways, and no rule is said to be broken; with as many lines
of other text between, faults that are planted are still found. What is found in a log is the same however its octets come. How
many single faults are still found in damaged logs is what the table of docs/CAPTURES.md says, which `--release` counts; `--write`
writes the table. Last line: `N passed, M failed`."""

import random

from support.check import Check
from support.fiolog import use_library
from support.loggers import LOGGERS
from support.talking import session

FORMS = ('transcript', 'TX and RX', 'arrows', 'CPU and FIO', 'WRITE and READ', 'counts', 'ISO times', 'US times', 'JSON lines', 'syslog',
         '0x and commas', 'characters', 'Python logging', 'CRLF, mark and tabs', 'table', 'line numbers')
CUTS = {'the end': lambda line, a, b: line[:a], 'the beginning': lambda line, a, b: line[a:],
        'the middle': lambda line, a, b: line[:min(a, b)] + line[max(a, b):], 'a character': lambda line, a, b: line[:a] + line[a + 1:],
        'a character, changed': lambda line, a, b: line[:a] + '?' + line[a + 1:], 'a blank more': lambda line, a, b: line[:a] + ' ' + line[a:]}
# One answer in this many is cut.
EACH = 50
WORDS = ['link', 'up', '9600', 'baud', 'error', '17', 'queue', 'ok', 'rate:', '--', 'COM3', 'at', '12:30:01', '192.168.1.7', '36', 'retries']


def summary(lines):
    """What fiolog says of a log."""
    from fiolog.summary import summary_of
    return summary_of(['\n'.join(lines).encode()])


def cut_lines(draw, lines, cut):
    """The lines with answers that are cut, of which a letter or a digit is left, and the last that was cut."""
    answers, done = [place for place, line in enumerate(lines) if 'b6' in line.lower()], None
    lines = list(lines)
    for place in draw.sample(answers, max(1, len(answers) // EACH)):
        left = ''
        while not any(map(str.isalnum, left)):
            left = cut(lines[place], draw.randrange(1, len(lines[place])), draw.randrange(1, len(lines[place])))
        lines[place], done = left, (place + 1, left)
    return lines, done


def fault_of_cuts(form, kind, trials):
    """Logs with cut answers accuse nobody."""
    lines = LOGGERS[form](session(60)).removeprefix('\ufeff').split('\n')
    for trial in range(trials):
        damaged, last = cut_lines(random.Random('%s %s %d' % (form, kind, trial)), lines, CUTS[kind])
        found = summary(damaged)
        if found.breaches:
            return '%r, %r' % (found.first_breach, last)
    return None


# What a logger writes behind a line that it cut.
DOTS = {'nothing': '', 'dots': '...', 'a blank and dots': ' ...', 'two dots': '..', 'dots as one character': '\u2026'}


def fault_of_fronts(form, word, dots):
    """Logs in which the fronts of four commands are cut at one and the same place accuse nobody."""
    lines = LOGGERS[form](session(60)).removeprefix('\ufeff').split('\n')
    commands = [place for place, line in enumerate(lines) if word in line][10::12][:4]
    for end in range(1, lines[commands[0]].index(word) + 1):
        found = summary([line[:end] + dots if place in commands else line for place, line in enumerate(lines)])
        if found.breaches:
            return '%d characters: %r' % (end, found.first_breach)
    return None


def doubled(frames):
    """The frames, in which three blocks with one entry have that of the block with one entry before instead."""
    blocks = [place for place, (_, _, octets) in enumerate(frames) if octets[0] == 182 and octets[2] == 1]
    for part in (4, 5, 6):
        first, place = blocks[len(blocks) * part // 8], blocks[len(blocks) * part // 8 + 1]
        time, direction, octets = frames[place]
        frames[place] = time, direction, octets[:3] + frames[first][2][3:6] + octets[6:]
    return frames


def fault_of_planted(form):
    """A poll for a wrong number is found between as many lines of other text, and of three doubled entries at least one: a line
    like what is left of a frame hides what is up to the next poll."""
    draw, frames = random.Random(form), doubled(session(60))
    skipped = next(at for at in range(20, len(frames)) if frames[at][2][0] == 54 and frames[at - 1][2][0] == 182)
    time, direction, octets = frames[skipped]
    frames[skipped] = time, direction, bytes([54, (octets[1] + 7) % 256])
    lines, numbers = [], {}
    for at, frame in enumerate(frames):
        lines += LOGGERS[form]([frame]).removeprefix('\ufeff').split('\n')[:-1]
        numbers[at] = len(lines)
        lines.append('2026-11-22 07:15:02 link: ' + ' '.join(draw.choice(WORDS) for _ in range(draw.randrange(1, 7))))
    found = summary(lines)
    first = found.first_breach
    if not first or first[:2] != (numbers[skipped], 'advance'):
        return '%r, %r' % (first, dict(found.broken))
    content = {rule for rule in found.broken if rule in ('order', 'fresh', 'alternate', 'apart')}
    return None if content else 'no doubled entry is found: %r' % dict(found.broken)


def turned_from(lines, place):
    """The lines, of which those from a place on say the other direction."""
    turned = {'TX': 'RX', 'RX': 'TX'}
    return lines[:place] + [' '.join(turned.get(word, word) for word in line.split(' ')) for line in lines[place:]]


def found_in(pieces):
    """What is found in a log whose octets come in these pieces."""
    from fiolog.summary import summary_of
    summary = summary_of(pieces)
    left_out = {name: count for name, count in summary.left_out.items() if name != 'skipped_lines'}
    return dict(summary.broken), summary.first_breach, left_out


def fault_of_pieces(place):
    """A log whose directions are exchanged from a line on, in which a CPU asks again for a block that was answered: at its own end
    that is a breach, at the module's it may be right. The octets come one by one, in two pieces, and with a long remark below."""
    lines = ['TX 36 05', 'RX b6 05 00 00 00 00 00 01', 'TX 36 05', 'RX b6 05 00 02 00 00 00 01']
    for number in range(6, 14):
        lines += ['TX 36 %02x' % number, 'RX b6 %02x 00 00 00 00 00 %02x' % (number, number)]
    octets = '\n'.join(turned_from(lines, place)).encode() + b'\n'
    expected = found_in([octets])
    ways = {'one by one': [octets[at:at + 1] for at in range(len(octets))], 'below 70,000 octets of text': [octets, b'idle\n' * 14_000]}
    ways.update(('cut at %d' % at, [octets[:at], octets[at:]]) for at in range(0, len(octets), 7))
    for name, pieces in ways.items():
        found = found_in(pieces)
        if found != expected:
            return '%s: %r, whole: %r' % (name, found, expected)
    return None


def check_survivors(check):
    """Most faults are still found in damaged logs, and the table says how many."""
    from support import survivors
    check.fault('faults that survive damage', survivors.fault_of_floors)
    name = 'the table of what survives damage'
    if check.wants(name) and (check.given.write or check.release(name)):
        rows = survivors.table_of(survivors.count())
        if check.given.write:
            survivors.TABLE.write(rows)
            print(survivors.HEAD + rows)
        check.equal(name, rows, survivors.TABLE.shown())


def main():
    check = Check(write=False, trials=(2, 4, 12))
    use_library(check, 'damaged logs')
    for place in (0, 4, 5, 8, 20):
        check.fault('octets in pieces, directions exchanged from line %d on' % (place + 1), fault_of_pieces, place)
    for form in FORMS:
        for kind in CUTS:
            check.fault('%s, cut: %s' % (form, kind), fault_of_cuts, form, kind, check.given.trials)
        check.fault('%s, faults that are planted' % form, fault_of_planted, form)
    for form, word in ('ISO times', 'tx'), ('US times', 'Sent'), ('syslog', 'TX'):
        for name, dots in DOTS.items():
            check.fault('%s, four fronts cut at one place, after them %s' % (form, name), fault_of_fronts, form, word, dots)
    check_survivors(check)
    check.end()


main()
