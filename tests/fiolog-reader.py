#!/usr/bin/env -S python3 -B
"""What the reader of logs finds in logs of other tools, by `fio2070.LogReader`: each form of tests/support/loggers.py, with
frames of the protocol's tables and with random ones; logs of strangers; who sent what, and why lines have no frame; damage, noise and
other text; and a reader that has read other logs says the same. Last line: `N passed, M failed`."""

import base64
import collections
import json
import random

from support.check import Check
from support.damage import CUT_OR_LOST, DAMAGES, damaged
from support.fiolog import frames_in, use_library, verdicts_on
from support.line_model import line_of
from support.loggers import LOGGERS, column, rows_of
from support.other_text import BY_CHANCE, other_text
from support.sessions import SESSION, random_session, timed
from support.strangers import PASSED, READ

# The types of messages of any length.
LOOSE = {56, 57, 59, 183, 184, 185, 187, 188}

# Lines without a frame, and the reasons of their verdicts.
REASONS = {
    'words of loss': ('07:15:02 3 frames lost\nRX buffer OVERRUN\nrx_dropped: 9\n[warn] Overflow, octets missing\nmissed an answer\nTX FIFO full\n'
                      'truncated\n* loss *\nsuppressed by a filter\n', ['loss'] * 9),
    'headings': ('=~=~=~=~=~= PuTTY log 2026.03.01 12:00:00 =~=~=~=~=~=\nDocklight Log File (HEX) started 22.11.2026 07:15:02\n'
                 'Log file opened 2026-03-01 12:00:00\nScript started on 2026-03-01 12:00:00 [TERM="xterm"]\n==> rx.log <==\n'
                 '--------- beginning of main\n*** 3 octets lost ***\n  # # #\n\t___\nWelcome to minicom 2.8\nEnabling Logfile\n'
                 'Mar  1 00:00:00 host newsyslog: logfile turned over\nsyslogd 1.5.0: restart.\nSerial port COM3 opened\nSession started.\n'
                 'Log file created at: 2026/03/01 12:00:00\nlistening on eth0, link-type EN10MB (Ethernet), capture size 65535 bytes\n'
                 'Begin capture\nRECORDING RESUMED\n-- Logs begin at Sun 2026-03-01 12:00:00 UTC --\nTerminal ready\n'
                 "Capturing on 'ttyS0'\nScript started on 2026-03-01 00:00:00+00:00 [TERM=\"xterm\"]\n",
                 ['heading'] * 7 + ['no octets'] + ['heading'] * 15),
    'words that say nothing': ('main loop idle\nport 3 idle\nqueue 08\nheartbeat 34\nstarting scan 12\nfile saved\nlossless\nblossom\nfully\n'
                               'login reopening\nopen 3\n-> port\n==\n-- MARK --\n', ['no octets'] * 14),
}

# Forms of which frames are not read: the share of the session's and of random ones, and why.
LOST = {'Saleae': (.1, 1, 'an octet a line: an answer of any length is divided by the command below it'),
        'Saleae with names': (.1, 1, 'an octet a line'), 'Saleae HDLC': (.1, 1, 'an octet a line'),
        'C arrays': (0, .2, 'rows of a type of any length'), 'serial monitor': (0, .1, 'rows of a type of any length'),
        'socat -x -v': (0, .1, 'rows of a type of any length, and such as end at 0A')}

# Logs of strangers that are not read, or in part, and why.
NOT_READ = {'Saleae, an octet a line': 'two messages, an octet a line', 'strace -x': 'short messages alone',
            'tcpdump -X': 'a packet with its headers', 'plain text of Wireshark': 'a packet with its headers', 'jq': 'a number a line',
            'journalctl -o json': 'one short message', 'Docker': 'one short message', 'Elixir': 'one short message', '\\u': 'one short message'}

class Read:
    """What the reader makes of a text."""

    def __init__(self, text, form='auto'):
        self.verdicts = verdicts_on(text.encode(), form)
        self.octets = frames_in(self.verdicts)
        self.is_whole = [one.line for one in self.verdicts] == list(range(1, len(self.verdicts) + 1))

    def hexadecimal(self):
        """The frames in digits."""
        return [octets.hex() for octets in self.octets]

    def reasons(self):
        return [one.reason for one in self.verdicts]

    def sides(self):
        return [one.said for one in self.verdicts]

    def strange(self, known):
        """The frames of known length that are none of these, in digits."""
        return [octets.hex() for octets in self.octets if octets not in known and octets[0] not in LOOSE]


def is_below(some, whole):
    """Whether all of some are in the whole, in their order."""
    rest = iter(whole)
    return all(one in rest for one in some)


def check_forms(check):
    """Each form gives the frames, in order, with their times where it writes them; none gives another."""
    for name, logger in LOGGERS.items():
        for kind, frames in (('the session', timed(SESSION)), ('random frames', timed(random_session(len(name), 300)))):
            if not check.wants('%s: %s' % (name, kind)):
                continue
            read, written = Read(logger(frames)), [octets for _, _, octets in frames]
            check.holds('%s: %s, no other frame' % (name, kind), is_below([one for one in read.octets if one[0] not in LOOSE], written))
            share = LOST.get(name, (0, 0))[kind != 'the session']
            check.holds('%s: %s, frames that are lost' % (name, kind), len(written) - len(read.octets) <= share * len(written),
                        '%d of %d are read' % (len(read.octets), len(written)))
            check.holds('%s: %s, each line has a verdict' % (name, kind), read.is_whole)
            found = [one.time for one in read.verdicts if one.kind == 'frames' for _ in one.frames]
            if found and None not in found and len(found) == len(frames):
                wrong = 1_000_000 if name in ('syslog', 'PuTTY', 'serial monitor') else 1_100
                check.holds('%s: %s, the times' % (name, kind), all(
                    abs(time - found[0] - round(1_000_000 * other)) <= wrong for time, (other, _, _) in zip(found, frames)))


# What is written before the octets of a line, and the side that it says of them.
SIDES = {
    'TX': '>', 'rx:': '<', 'Sent ': '>', 'recv(3, ': '<', 'TX then RX': '<', 'in 5 ms': '<', 'CPU ->': '>', 'FIO <-': '<',
    'CPU -> FIO:': '>', 'FIO -> CPU:': '<', 'CPU <- FIO': '<', '[FIO] > [CPU] ': '<', '> CPU ': '>', 'FIO \u2192 CPU': '<', '=> FIO': '>',
    'sent to fio: ': '>', 'from FIO to CPU ': '<', 'to port 3, TX': '>', 'CPU -> 3 RX': '<',
    '[0] > cpu ': '>', '-->': '>', '=>': '>', '<<': '<', '<->': '', '>=': '', '> ': '>', '< TX': '<', '>TX RX': '<', '\u2192': '>', '\u2190\u2192': '>',
    '\u00e9\u2190': '<', 'tx_data': '>', 'tx1': '>', 'text': '', 'incoming': '<', 'wrote': '>', '': '', '07:15:02.100': '', 'TX ' + 'x ' * 300: '>',
}


def check_sides(check):
    """A line says who sent its octets by what is before them, whatever is after them; a transcript by order by its first sign."""
    for words, side in SIDES.items():
        check.equal('the side of %r' % words, [side], Read('%s b605000000000001 TX\n' % words).sides())
    for name, text, sides in (('a dump below a line that says it', 'RX of the link\n0000 b6 05 00 00\n0004 00 00 00 01\n', ['<', '<', '<']),
                              ('a command and its answer', 'TX 3605 RX b605000000000001\n', ['>'])):
        check.equal('the side of ' + name, sides, Read(text).sides())
    for form, text, sides in (('transcript', '> 3605\n< b300\n', ['>', '<']), ('frames', '3605\n', [''])):
        check.equal('the sides of %s' % form, sides, Read(text, form).sides())


# Lines of streams between flags: what they are, and the time in milliseconds, the side and the octets of each of their frames. A frame
# has the time and the side of the row in which its first octet is; a flag that ends the frame above is none of it.
STREAMS = {
    'a frame a line, but for the first': (
        '0.0000 7E 14 83 36 00\n0.0010 69 4C 7E\n0.0200 7E 14 83 B7 00 00 00 04 01 EC 48 7E\n0.0320 7E 14 83 BC 02 C7 1E 7E\n'
        '0.0420 7E 14 83 BA 00 05 69 7E\n0.0520 7E 14 83 B3 00 1D BE 7E\n0.0620 7E 14 83 31 80 69 85 7E\n0.0730 7E 14 83 36 00 69 4C 7E\n',
        [(0, '', '3600'), (20, '', 'b70000000401'), (32, '', 'bc02'), (42, '', 'ba00'), (52, '', 'b300'), (62, '', '3180'), (73, '', '3600')]),
    'sides': (
        '0.000 TX 7E 14 83 36 00 69 4C 7E 7E 14 83 3C\n0.001 TX 73 7D 5D 7E\n0.010 RX 7E 14 83 B6 00 00 00 00 00 00 07 02 5C 7E 7E 14 83 BC\n'
        '0.011 RX 02 C7 1E 7E\n0.100 TX 7E 14 83 36 01 E0 5D 7E\n0.110 RX 7E 14 83 B6 01 00 00 00 00 00 6B BD 6A 7E\n'
        '0.200 TX 7E 14 83 36 02 7B 6F 7E\n0.210 RX 7E 14 83 B6 02 00 00 00 00 00 CF FD 21 7E\n',
        [(0, '>', '3600'), (0, '>', '3c'), (10, '<', 'b600000000000007'), (10, '<', 'bc02'), (100, '>', '3601'),
         (110, '<', 'b60100000000006b'), (200, '>', '3602'), (210, '<', 'b6020000000000cf')]),
    'one flag between two frames': (
        '0.000 7E 14 83 36 00 69 4C 7E\n0.010 14 83 B6 00 00 00 00 00 00 07 02 5C 7E\n0.100 14 83 36 01 E0 5D 7E\n'
        '0.110 14 83 B6 01 00 00 00 00 00 6B\n0.111 BD 6A 7E\n0.200 14 83 36 02 7B 6F\n0.201 7E\n0.210 7E\n'
        '0.211 14 83 B6 02 00 00 00 00 00 CF FD 21 7E\n',
        [(0, '', '3600'), (10, '', 'b600000000000007'), (100, '', '3601'), (110, '', 'b60100000000006b'), (200, '', '3602'),
         (210, '', 'b6020000000000cf')]),
    'octets of which a part is gone': (
        '0.000 7E 14 83 36 00 69 4C 7E\n0.010 7E 14 83 B6 00 00 00 00 00 00 07 02 5C 7E\n0.100 7E 14 83 36 01 E0 5D 7E\n0.110 7E 14 83 B6 01\n'
        '0.111 \0\0\0\0 7E\n0.112 00 00 00 00 00 6B BD 6A 7E\n0.200 7E 14 83 36 02 7B 6F 7E\n0.210 7E 14 83 B6 02 00 00 00 00 00 CF FD 21 7E\n',
        [(0, '', '3600'), (10, '', 'b600000000000007'), (100, '', '3601'), (200, '', '3602'), (210, '', 'b6020000000000cf')]),
}
# The same below headings that say the time, and who sent the octets: of a row below another one too, once there were two headings.
HEADED = ['7E 14 83 36 %02X %s 7E' % one for one in enumerate(('69 4C', 'E0 5D', '7B 6F', 'F2 7D 5E', '4D 0A', 'C4 1B'))]


def check_streams(check):
    """Frames between flags have the times and the sides of the rows in which they begin."""
    for name, (text, expected) in STREAMS.items():
        read = Read(text)
        check.equal('a stream, ' + name, expected, [(one.time and one.time // 1000, one.said, octets.hex()) for one in read.verdicts
                                                    for octets in one.frames])
    frames = [bytes([182, place // 2, 0, 0, 0, 0, 0, place]) if place % 2 else bytes([54, place // 2]) for place in range(16)]
    lines = [line_of(octets, 0x14, 0x83).hex(' ') for octets in frames]
    ends = [15 + 3 * (place % 3) for place in range(16)]
    rows = ['0.%02d0 %s\n%s0.%02d6 %s\n' % (place, line[:end], '0.095 \0\0\0\0\n' * (place == 9), place, line[end:]) for place, (line, end) in enumerate(zip(lines, ends))]
    found = [(one.time // 1000, octets.hex()) for one in Read(''.join(rows)).verdicts for octets in one.frames]
    check.equal('a stream, two rows a frame, and between two of them a part is gone',
                [(10 * place, octets.hex()) for place, octets in enumerate(frames) if place != 9], found)
    rows = ['[07:00:%02d.000] Sent to the port (COM3)\n    %s\n    %s\n\n' % (place, one, HEADED[5]) for place, one in enumerate(HEADED)]
    found = [(one.time, one.said, octets.hex()) for one in Read(''.join(rows)).verdicts for octets in one.frames]
    expected = [(25_200_000_000 + 1_000_000 * place, '>' if place > 1 else '', octets) for place in range(6) for octets in ('36%02x' % place, '3605')]
    expected[1] = expected[3] = None, '', '3605'
    check.equal('a stream below headings', expected, found)


# Messages below headings: the time is in the line above, or several lines above; blank lines may be between.
HEADINGS = {'directly above': '{time} {side} 1 octets\n', 'three lines above': '{time} transfer\nHandle: 0x8a1b\n{side} 1 octets\n',
            'above a blank line': '{time} transfer\n\n{side} 1 octets\n'}


def check_headings(check):
    """A message has the time of the heading above it, however many lines that has."""
    frames = timed(SESSION, 1, 0)
    for name, heading in HEADINGS.items():
        text = ''.join(heading.format(time='07:%02d:%02d.000' % divmod(int(time), 60), side={'>': 'Send', '<': 'Get'}[side]) + dump_of(octets)
                       for time, side, octets in frames)
        check.equal('a heading, ' + name, [(25_200 + time, octets) for time, _, octets in frames],
                    [(one.time and one.time / 1e6, octets) for one in Read(text).verdicts for octets in one.frames])


def dump_of(octets):
    """Octets in rows of 16, as a dump has them, and a blank line."""
    return ''.join('    %-48s %s\n' % (row.hex(' '), column(row)) for row in rows_of(octets)) + '\n'


# Polls and their answers: the side and the octets of each.
POLLS = [one for number in range(12) for one in (('>', bytes([54, number])), ('<', bytes([182, number] + [number // 6] + [9, 1, number] * (number // 6)
                                                                                      + [0, 0, 0, 2, number])))]
WORDS = {'>': 'TX', '<': 'RX'}
BORDER = '+--------+-------------------------------------------------+\n'


def boxed(side, octets, head='{side}:\n', above=BORDER, below=BORDER):
    """A message in a box."""
    rows = ''.join('|%08x| %-47s |\n' % (16 * place, row.hex(' ')) for place, row in enumerate(rows_of(octets)))
    return head.format(side=WORDS[side]) + above + rows + below


def listed(side, octets):
    """A message as a pretty printer has it: a long one has its octets in the lines below."""
    literal = "b'%s'" % ''.join('\\x%02x' % octet for octet in octets)
    return "('%s',%s%s)\n" % (WORDS[side], '\n ' if len(octets) > 9 else ' ', literal)


# What is above messages, and between them: none of it may be a message, nor the heading of a log.
ABOVE = {
    'borders': boxed,
    'a ruler between borders': lambda *one: boxed(*one, head='{side} port 3\n', above=BORDER + '|  0  1  2  3  4  5  6  7  8  9  a  b  c  d  e  f |\n' + BORDER),
    'a rule that says who sent it': lambda side, octets: '****** %s %d bytes ******\n%s\n' % (WORDS[side], len(octets), octets.hex(' ')),
    'rules alone': lambda side, octets: '----------\n%s %s\n' % (WORDS[side], octets.hex(' ')),
    'rules between exchanges': lambda side, octets: '%s%s %s\n' % ('----------\n' * (side == '>'), WORDS[side], octets.hex(' ')),
    'the beginning of a list': listed,
    'the last offset of a dump': lambda side, octets: '%s:\n%s%07d\n' % (WORDS[side], ''.join('%07d%s\n' % (16 * place, ''.join(' %3d' % one for one in row))
                                                                                 for place, row in enumerate(rows_of(octets))), len(octets)),
}


def check_above(check):
    """Lines above and between messages are told apart from rows that are lost."""
    for name, written in ABOVE.items():
        read = Read(''.join(written(*one) for one in POLLS))
        check.equal('messages below %s' % name, [octets for _, octets in POLLS], read.octets)
        check.equal('nothing is lost: ' + name, set(), {(one.kind, one.reason) for one in read.verdicts if one.kind in ('damaged', 'possible') or one.reason in ('heading', 'more')})
    for name, log, expected in (
            ('a row in a box', [boxed(*one) for one in POLLS[:20]] + [boxed('<', b'')] + [boxed(*one) for one in POLLS[21:]], ('damaged', 'no message')),
            ('a list', [listed(*one) for one in POLLS[:19]] + ["('RX',\n"] + [listed(*one) for one in POLLS[20:]], ('frames', 'more'))):
        read = Read(''.join(log))
        check.equal('%s that is lost' % name, {expected}, {(one.kind, one.reason) for one in read.verdicts if one.kind in ('damaged', 'possible') or one.reason == 'more'})
    parts = '----- log of TX and RX -----\n'.join(''.join('%s %s\n' % (WORDS[side], octets.hex(' ')) for side, octets in POLLS[first:first + 4]) for first in range(0, 20, 4))
    check.equal('headings above several messages', ['heading'] * 4, [one.reason for one in Read(parts).verdicts if one.kind == 'passed over'])


# Streams of both ends as tools write them, by what a row of 16 octets is.
DUMPED = {
    'od -t u1': lambda row: ''.join('%4d' % octet for octet in row),
    'od -c': lambda row: ''.join('%4s' % CELLS.get(octet, chr(octet) if 32 < octet < 127 else '%03o' % octet) for octet in row),
}
CELLS = {0: '\\0', 7: '\\a', 8: '\\b', 9: '\\t', 10: '\\n', 11: '\\v', 12: '\\f', 13: '\\r', 32: ''}


def check_dumped(check):
    """A stream of both ends is read in the notations of od, and in base64."""
    octets = b''.join(octets for _, octets in POLLS)
    texts = {name: ''.join('%07o%s\n' % (16 * place, written(row)) for place, row in enumerate(rows_of(octets))) for name, written in DUMPED.items()}
    texts['base64'] = base64.encodebytes(octets).decode()
    for name, text in texts.items():
        check.equal('a stream in ' + name, [octets for _, octets in POLLS], Read(text).octets)
    rows = ['%07d%s' % (16 * place, DUMPED['od -t u1'](row)) for place, row in enumerate(rows_of(octets * 6))]
    one = Read('\n'.join(rows[:40] + [rows[40].split(None, 3)[3]] + rows[41:])).verdicts[40]
    check.holds('a row of which the offset is cut off', one.kind == 'damaged' or one.reason == 'broken', (one.kind, one.reason))


def check_literals(check):
    """Octets of a literal are its own: A0, a blank that does not break, is read as in hexadecimal digits."""
    blocks = [('<', bytes([182, number, 2, 0x9f, 1, 0xa0, 0xa0, 2, number, 0, 0, 0, 3, 0xa0])) for number in range(12)]
    for name, quoted in (('JSON', lambda octets: json.dumps(octets.decode('latin-1'), ensure_ascii=False)),
                         ('u-escapes', lambda octets: '"%s"' % ''.join('\\u%04x' % octet for octet in octets))):
        log = [one for pair in zip(POLLS[::2], blocks) for one in pair]
        read = Read(''.join('%s %s\n' % (WORDS[side], quoted(octets)) for side, octets in log))
        check.equal('octets of a literal: %s' % name, [octets for _, octets in log], read.octets)


def check_short(check):
    """A row of a stream that is shorter than the others, and not the last, has lost octets, maybe whole frames; so has a dump that is
    shorter than what is before each message."""
    frames = [line_of(one) for number in range(60) for one in (bytes([54, number]), bytes([182, number]) + bytes(5) + bytes([number]))]
    octets, ends = b''.join(frames), [sum(map(len, frames[:count])) for count in range(len(frames))]
    rows = [octets[place:place + 32].hex() for place in range(0, len(octets), 32)]
    row = next(row for row in range(12, len(rows)) if 32 * row in ends[::2])
    lost = frames[ends.index(32 * row)].hex()
    for name, log, expected in (('no row', rows, []), ('a row', rows[:row] + [rows[row].removeprefix(lost)] + rows[row + 1:], [row + 1])):
        read = Read('\n'.join(log) + '\n')
        check.equal('a stream of which %s has lost a frame' % name, expected, [one.line for one in read.verdicts if one.reason])
        check.holds('a stream of which %s has lost a frame: all others are read' % name, len(read.octets) == 120 - len(expected), len(read.octets))
    header = bytes(12) + bytes.fromhex('08004500001e508940004011ec437f0000017f0000016c0381ae000afe1d')
    packets = [header + octets for _, octets in POLLS + [('>', b'4'), ('<', bytes([180]) + bytes(12)), ('>', b'5'), ('<', bytes([181]) + bytes(12))]]
    for count, expected in (44, []), (42, []), (41, ['broken']), (33, ['broken']), (20, ['broken']):
        texts = [''.join('%04x  %s\n' % (16 * place, row.hex(' ')) for place, row in enumerate(rows_of(packet[:count] if at == 12 else packet)))
                 for at, packet in enumerate(packets)]
        check.equal('a packet of 44 octets of which %d are left' % count, expected, [one.reason for one in Read('\n'.join(texts)).verdicts if one.reason])


def check_left_over(check):
    """A last row of one octet, below a row of characters, is no message of a type of any length."""
    blocks = [('<', bytes([182, number, 3, 1, 1, number, 2, 2, number, 3, 3, number, 0, 0, 0, 4, last])) for number, last in enumerate(b'\xbc\xbb\xb9\xbc')]
    sent = [one for block in blocks for one in (('>', bytes([54, block[1][1]])), block)] + POLLS
    text = ''.join('%s:\n' % WORDS[side] + ''.join('%06x%s\n      %s\n' % (16 * place, ''.join('  %02x' % one for one in row), DUMPED['od -c'](row))
                                                  for place, row in enumerate(rows_of(octets))) + '%06x\n' % len(octets) for side, octets in sent)
    read = Read(text)
    check.holds('rows of octets and of characters, no other frame', is_below(read.octets, [octets for _, octets in sent]), [one.hex() for one in read.octets])


def check_joined(check):
    """Two lines that became one, of which the second has an escape that is no octet: it may hold more."""
    polls = [one for number in range(12) for one in (('>', bytes([54, number])), ('<', bytes([182, number, 1, 1 + 128 * (number % 2), number + 1]) + b'`\0\0\0%ch' % (number + 1)))]
    lines = ['07:15:00.%03d %s "%s"' % (9 * place, WORDS[side].lower(), ''.join(chr(one) if 32 <= one < 127 else '\\x%02x' % one for one in octets))
             for place, (side, octets) in enumerate(polls)]
    for name, lost in ('last', 2), ('first', len(lines[13]) - 17):
        read = Read('\n'.join(lines[:12] + [lines[12] + lines[13][:-lost] + '\\u0217"'] + lines[14:]) + '\n')
        check.equal('a line joined with one whose %s octet is none' % name, {('frames', ''): 22, ('frames', 'more'): 1},
                    dict(collections.Counter((one.kind, one.reason) for one in read.verdicts)))


# Numbers before the octets that could be messages by themselves.
NUMBERS = {'a process': 'fiod[%s] ', 'a port': ':%s-:2070 ', 'a line of a program': 'link.c:%s: ', 'an address': '0x%s: ', 'a thread': '%s 1234 D '}


def check_numbers(check):
    """A number that is the same in all lines of a direction is no message, and hides none."""
    for name, form in NUMBERS.items():
        for numbers in (('3605', '3605'), ('3605', '3612'), ('36051', '36051'), ('3100', '3888')):
            text = ''.join('07:15:%02d.000 %s%s %s\n' % (place, form % numbers[side == '<'], WORDS[side], octets.hex()) for place, (side, octets) in enumerate(POLLS))
            for more in '', '07:14:59.000 %s started\n' % (form % numbers[0]):
                check.equal('%s before octets: %s%s' % (name, ' '.join(numbers), more and ', started'), [octets for _, octets in POLLS], Read(more + text).octets)


def check_own_rows(check):
    """A row that may be a message by itself ends the message above it, if that says its length; below rows that are lost it is read."""
    blocks = [bytes([182, number, 7]) + b''.join(bytes([place, *stamp.to_bytes(2, 'big')]) for place in range(7)) + bytes([0, 0, 0, 0xb5, 0])
              for number, stamp in enumerate((0xb400, 0xb4b4, 0xb500, 0xb5b5, 7))]
    others = [bytes([180]) + bytes(8) + (0xb600).to_bytes(4, 'big'), bytes([181, 1]) + bytes(7) + (0xb601).to_bytes(4, 'big')]
    texts = {octets: '[07:00:00.000] Read data (COM3)\n' + dump_of(octets) for octets in SESSION + blocks + others}
    check.equal('rows that look like messages', SESSION + blocks + others, Read(''.join(texts[octets] for octets in SESSION + blocks + others)).octets)
    for lost in range(1, 4):
        rows = [text.split('\n') for text in (texts[octets] for octets in blocks)]
        cut = ['\n'.join(row[:3 - lost] + row[3:]) + texts[other] for row, other in zip(rows, others)]
        check.equal('messages below rows that are lost, %d' % lost, SESSION + others, Read(''.join(texts[octets] for octets in SESSION) + ''.join(cut)).octets)


def check_reasons(check):
    """Each text of the table has no frame, and its lines have these reasons; in a line like those of frames it is damaged."""
    for name, (text, expected) in REASONS.items():
        read = Read(text)
        check.equal('%s: no frame, and why' % name, ([], expected), (read.octets, read.reasons()))
    good = 'RX b6 05 00 00 00 00 00 01\nRX b6 06 00 00 00 00 00 02\nRX b6 07 00 00 00 00 00 03\n'
    for name, line, expected in (('a check of another kind', 'RX b6 08 00 00 00 00 00 04 a4 7c', ('damaged', 'no message')),
                                 ('an octet that is missing', 'RX b6 08 00 00 00 00 00', ('damaged', 'no message')),
                                 ('a loss', '3 lost', ('passed over', 'loss')), ('the beginning of a message', 'memory at b6 05 00 00', ('possible', 'no form')),
                                 ('nothing', '', ('blank', ''))):
        read = Read(good + line + '\n' + good)
        check.equal('%s between frames' % name, [('frames', '')] * 3 + [expected] + [('frames', '')] * 3, [(one.kind, one.reason) for one in read.verdicts])


def check_broken(check):
    """A blank line below a message that is not whole says so."""
    dump = ['RX\n0000 b6 %02x 00 00\n0004 00 00 00 %02x\n' % (number, number) for number in range(5, 9)]
    read = Read(''.join(dump) + 'RX\n0000 b6 09 00 00\n\n' + ''.join(dump))
    check.equal('a blank line below a message that is not whole', [('blank', 'broken')], [(one.kind, one.reason) for one in read.verdicts if one.line == 15])


def check_strangers(check):
    """Each log of a tool: its frames, in order; what is no longer read has a row that says so. Nothing else is a frame."""
    for name, text, expected in READ:
        read, written = Read(text), [bytes.fromhex(one[1:]) for one in expected]
        if name in NOT_READ:
            check.holds('%s, not read whole: %s' % (name, NOT_READ[name]), is_below(read.octets, written) and read.octets != written)
        else:
            check.equal(name, written, read.octets)
        check.holds('%s, each line has a verdict' % name, read.is_whole)
    for name, text, expected in PASSED:
        read, written = Read(text), [bytes.fromhex(one[1:]) for one in expected]
        # A message that is written in the log, though among other octets.
        strange = [octets for octets in read.octets if octets not in written and octets.hex() not in text.lower().replace(' ', '').replace('<', '').replace('\n', '')]
        check.equal('%s: no frame that is not written' % name, [], strange)
        check.holds('%s, each line has a verdict' % name, read.is_whole)


# The stations of logs of frames between flags, and how many inputs the configurations have above the first answer.
UNREAD = [((0x65, 0x6f), (3, 64)), ((0x96, 0x54), (6, 6)), ((0xaa, 0x20, 0x31), (8, 8, 64)), ((0x14,), (64, 3)), ((1, 2, 3, 4), (64, 64, 64, 64))]


def stations_log(addresses, counts):
    """The lines of a log: configurations, one of them answered, and polls of each station, of which every second one is answered."""
    lines = [('TX', addresses[place % len(addresses)], bytes([51, count]) + b''.join(bytes([one, 1 + one % 9, place]) for one in range(count)))
             for place, count in enumerate(counts)]
    for number in range(8):
        for address in addresses:
            lines += [('TX', address, bytes([54, number // 2]))] + [('RX', address, bytes([182, number // 2, 0, 0, 0, 0, 1, number]))] * (number % 2)
    return ['%s %s' % (side, line_of(octets, address, 0x83).hex(' ').upper()) for side, address, octets in lines]


def check_unread(check):
    """Lines between flags are read whatever is above the first answer; one that no form has is a frame that is not read, if its check is right."""
    for addresses, counts in UNREAD:
        lines = stations_log(addresses, counts)
        for count in 12, 20, len(lines):
            read = Read('\n'.join(lines[:count]) + '\n')
            check.equal('%d lines of %d stations' % (count, len(addresses)), [], [one for one in read.verdicts if len(one.frames) != 1])
    good = 'RX b6 05 00 00 00 00 00 01\nRX b6 06 00 00 00 00 00 02\nRX b6 07 00 00 00 00 00 03\n'
    for name, octets, expected in (('a frame with a right check', line_of(bytes([188, 2])), ('possible', 'unread frame')),
                                   ('one with another check', line_of(bytes([188, 2]))[:-2] + b'\0\x7e', ('passed over', 'no octets'))):
        one = Read(good + 'ttyS1 saw %s\n' % octets.hex(' ')).verdicts[-1]
        check.equal('%s, of no form' % name, expected, (one.kind, one.reason))


# The forms of which a lost digit or row is not seen: octets without zeros before them, an octet a row.
UNSEEN = ('Python words', 'JSON of numbers', 'Saleae', 'Saleae with names', 'Saleae HDLC', 'Python bytes')
# A log of which so many lines are cut that two of them are read as the pieces of one message.
JOINED = {('counts', 0)}


def fault_of_damage(name, seed):
    """In a log of which characters were changed, cut or doubled, no frame of known length is read that was not written, but in
    forms of which that is said; each line has a verdict."""
    draw = random.Random(seed)
    frames = timed([octets for octets in random_session(seed, 400) if seed % 2 or octets[0] in (54, 182)])
    # A changed character is another octet where Python writes the octet so.
    read = Read(damaged(LOGGERS[name](frames), draw, 60, CUT_OR_LOST if name == 'Python bytes' else DAMAGES))
    if not read.is_whole:
        return 'lines without a verdict'
    strange = read.strange([octets for _, _, octets in frames])
    return 'of %d frames %s' % (len(strange), strange[0]) if strange and name not in UNSEEN else None


def fault_of_joined(name, seed):
    """Two cut lines are read as the pieces of one message, and no other frame is there that was not written."""
    found = fault_of_damage(name, seed) or 'none'
    return None if found.startswith('of 1 frames') else found


def fault_of_damaged_stranger(name, text, expected):
    """No line that is cut, changed, lost or doubled makes another frame of known length."""
    draw, known = random.Random(name), [bytes.fromhex(one[1:]) for one in expected]
    for _ in range(0 if name in ('Erlang', 'Java', 'interceptty', 'PulseView', 'Saleae, an octet a line') else 12):
        log = damaged(text, draw, 1, CUT_OR_LOST)
        if Read(log).strange(known):
            return log, Read(log).strange(known)
    return None


def fault_of_noise(seed):
    """Random words have no frame, and each line has a verdict."""
    draw = random.Random(seed)
    words = ['link', 'up', '9600', 'baud', 'error', '17', 'TX', 'queue', '0x', 'ok', 'rate:', '--', 'COM3', 'at', '12:30:01']
    read = Read('\n'.join(' '.join(draw.choice(words) for _ in range(draw.randrange(9))) for _ in range(1000)))
    return None if read.is_whole and not read.octets else '%d frames, such as %r' % (len(read.octets), read.octets[:1])


def check_other_text(check):
    """Text of other programs: each frame in it is listed, with what makes it one by chance."""
    logs, length = check.given.logs, 2000 if check.given.release else 1000 if check.given.all else 500
    found = {}
    for name, text in other_text(logs * length, length):
        read = Read(text)
        check.holds('%s: each line has a verdict' % name, read.is_whole)
        found.update({(name, one.line): octets.hex() for one in read.verdicts if one.kind == 'frames' for octets in one.frames})
    expected = {key: value for key, value in BY_CHANCE.items() if key[1] <= length and int(key[0].split(', ')[-1]) < logs}
    check.equal('frames in other text', expected, found)


def check_again(check):
    """A reader that has read other logs says the same of a log as a new one."""
    import fio2070
    texts, used = {name: logger(timed(random_session(len(name), 60))) for name, logger in LOGGERS.items()}, fio2070.LogReader()
    texts.update({name: text for name, text, _ in READ + PASSED})
    for name, text in texts.items():
        octets = damaged(text, random.Random(name), 3).encode()
        check.equal('after other logs, %s' % name, verdicts_on(octets), used.read(octets) + used.end())


def main():
    check = Check(logs=(26, 52, 128))
    use_library(check, 'all of fiolog')
    for part in (check_forms, check_sides, check_streams, check_headings, check_above, check_dumped, check_literals, check_numbers, check_left_over, check_joined, check_short, check_own_rows, check_unread, check_broken, check_reasons, check_strangers, check_other_text, check_again):
        part(check)
    seeds = 2 if check.whole('damage, seed 1') else 1
    for place, name in enumerate(LOGGERS):
        for seed in range(seeds):
            find = fault_of_joined if (name, seed) in JOINED else fault_of_damage
            check.fault('damage in %s, seed %d' % (name, seed), find, name, 2 * place + seed)
    for name, text, expected in READ:
        check.fault('damage in %s' % name, fault_of_damaged_stranger, name, text, expected)
    for seed in range(3):
        check.fault('noise, seed %d' % seed, fault_of_noise, seed)
    check.end()


if __name__ == '__main__':
    main()
