#!/usr/bin/env -S python3 -B
"""`show` on tables of captured frames, each with the text that docs/PROTOCOL.md gives for its octets: each message whole,
cut after each of its octets, and with one octet too many; wrong counts; the longest frames; the largest inputs. Last line:
`N passed, M failed`."""

from support.check import Check
from support.tables import MOST_OCTETS, in_short, lines_that_fit, row

# Each message, how many octets it needs, and what is written for it. If the need follows from a count, also how many octets
# it takes to see the count, and what is needed if the count is missing.
MESSAGES = [
    ('3180', 2, 'status clear 80'),
    ('3200010000', 5, 'load counter 65536'),
    ('3300', (2, 2, 2), 'configure inputs 0'),
    ('33020c0503830000', (2, 2, 8), 'configure inputs 2\n'
     '  input 12 ignore 0 leading 5 trailing 3\n  input 3 ignore 1 leading 0 trailing 0'),
    ('34', 1, 'raw inputs'),
    ('35', 1, 'filtered inputs'),
    ('3605', 2, 'poll block 5'),
    ('3700000000000000010000000000000000', 17,
     'set outputs data 0000000000000001 control 0000000000000000'),
    ('38', None, 'other 56 body -'),
    ('39aB', None, 'other 57 body ab'),
    ('3ac8', 2, 'watchdog ms 200'),
    ('3b0102', None, 'other 59 body 0102'),
    ('3c', 1, 'identify'),
    ('B1800001000003E8', 8, 'status flags 80 receive 0 transmit 1 stamp 1000'),
    ('b2fe', 2, 'counter load status fe'),
    ('b301', 2, 'configure status 01'),
    ('b4feffffffffffffff00000001', 13, 'raw inputs feffffffffffffff stamp 1'),
    ('b5feffffffffffffffffffffff', 13, 'filtered inputs feffffffffffffff stamp 4294967295'),
    ('b6050000000003e8', (3, 8, 8), 'block 5 entries 0 status 00 stamp 1000'),
    ('b605018c03e700000003e8', (3, 8, 11), 'block 5 entries 1 status 00 stamp 1000\n'
     '  input 12 state 1 stamp 999 wide 999'),
    ('b7', None, 'other 183 body -'),
    ('b800', None, 'other 184 body 00'),
    ('b9', None, 'other 185 body -'),
    ('ba01', 2, 'watchdog status 01'),
    ('bb', None, 'other 187 body -'),
    ('bc02', None, 'other 188 body 02'),
]

WIDE_TIMES = [
    ('b600020cfffe0d00030000010002', 'block 0 entries 2 status 00 stamp 65538\n'
     '  input 12 state 0 stamp 65534 wide 65534\n  input 13 state 0 stamp 3 wide 3\n', 0),
    ('b600010cfffe0000000005', 'block 0 entries 1 status 00 stamp 5\n'
     '  input 12 state 0 stamp 65534 wide 4294967294\n', 0),
]

LINES = [
    ('', '', 0),
    ('\n\n# zz\n', '', 0),
    ('3605\n\n3606\n', 'poll block 5\npoll block 6\n', 0),
    ('3605\nb605018c03e700000003e8\nb605028c03e700000003e8\n30\nzz',
     'poll block 5\nblock 5 entries 1 status 00 stamp 1000\n  input 12 state 1 stamp 999 wide 999\n'
     'line 3: wrong length needed 14 got 11\nline 4: unknown type 48\nline 5: bad line\n', 1),
    ('3605\n# a remark\nb6050000000003e8\n3605ff\n30\nzz\n',
     'poll block 5\nblock 5 entries 0 status 00 stamp 1000\nline 4: wrong length needed 2 got 3\n'
     'line 5: unknown type 48\nline 6: bad line\n', 1),
    ('3605\r\n36\n360\n 3605', 'line 1: bad line\nline 2: wrong length needed 2 got 1\n'
     'line 3: bad line\nline 4: bad line\n', 1),
    # A line that begins with # is skipped, but none that begins with anything else.
    ('; x\n;\n// 36\n3605', 'line 1: bad line\nline 2: bad line\nline 3: bad line\npoll block 5\n', 1),
    ('7f\n80\nbd\n33', 'line 1: unknown type 127\nline 2: unknown type 128\n'
     'line 3: unknown type 189\nline 4: wrong length needed 2 got 1\n', 1),
]

# Wrong counts.
COUNTS = [
    ('b605028c03e700000003e8', 14, 11),
    ('b605ff8c03e700000003e8', 773, 11),
    ('b605008c03e700000003e8', 8, 11),
    ('b60502', 14, 3),
    ('33ff0c0503', 767, 5),
    ('33000c0503', 2, 5),
]

LONGEST = [
    ('30' * 774, 'line 1: too long got 774\n', 1),
    ('38' + '00' * 773, 'line 1: too long got 774\n', 1),
    ('b8' + 'ff' * 773, 'line 1: too long got 774\n', 1),
    ('38' + '00' * 772, 'other 56 body ' + '00' * 772 + '\n', 0),
    ('33ff' + '0c0503' * 255,
     'configure inputs 255\n' + '  input 12 ignore 0 leading 5 trailing 3\n' * 255, 0),
    ('b605ff' + '8c03e7' * 255 + '08000003e8', 'block 5 entries 255 status 08 stamp 1000\n'
     + '  input 12 state 1 stamp 999 wide 999\n' * 255, 0),
    # A word of 65,536 digits.
    ('38' * 32_768, 'line 1: too long got 32768\n', 1),
]

# A body of 772 octets, and a block of 255 entries with the greatest numbers, whose text is the longest.
LONGEST_BODY = '38' + '07' * 772 + '\n'
LONGEST_BLOCK = 'b605ff' + '8c03e7' * 255 + '08000003e8\n'
GREATEST_BLOCK = 'b6ffff' + 'ffffff' * 255 + '08ffffffff\n'
BODIES = lines_that_fit(LONGEST_BODY)
BLOCKS = lines_that_fit(LONGEST_BLOCK)

LARGEST = [
    ('\n' * (MOST_OCTETS + 1), 'input too long\n', 1),
    ('\n' * MOST_OCTETS, '', 0),
    ('#' * MOST_OCTETS, '', 0),
    # The shortest lines that have content.
    ('34\n' * lines_that_fit('34\n'), 'raw inputs\n' * lines_that_fit('34\n'), 0),
    # One line.
    ('38' * (MOST_OCTETS // 2), 'line 1: too long got 524288\n', 1),
    ('?' * MOST_OCTETS, 'line 1: bad line\n', 1),
    (LONGEST_BODY * BODIES, ('other 56 body ' + '07' * 772 + '\n') * BODIES, 0),
    (LONGEST_BLOCK * BLOCKS, ('block 5 entries 255 status 08 stamp 1000\n'
                              + '  input 12 state 1 stamp 999 wide 999\n' * 255) * BLOCKS, 0),
    (GREATEST_BLOCK * BLOCKS, ('block 255 entries 255 status 08 stamp 4294967295\n'
                               + '  input 127 state 1 stamp 65535 wide 4294967295\n' * 255) * BLOCKS, 0),
]

# Lines with content, or without, before two faulty ones.
DEEP = [
    (line * count + 'zz\n30', text * count + 'line %d: bad line\nline %d: unknown type 48\n' % (count + 1, count + 2), 1)
    for line, text, counts in (
        ('34\n', 'raw inputs\n', (65_535, 70_000, 131_071, 200_000, lines_that_fit('34\n') - 2)),
        ('3605\n', 'poll block 5\n', (13_107, 65_536, 150_000)),
        ('\n', '', (65_534, 100_000, 1_000_000)),
    ) for count in counts
]


def wrong_length(needed, got):
    return 'line 1: wrong length needed %d got %d\n' % (needed, got)


def at_other_lengths(message, need, text):
    """What is written for a message that is cut after each of its octets, and for one with an octet too many."""
    whole = len(message) // 2
    for got in list(range(1, whole)) + [whole + 1]:
        octets = (message + '00')[:2 * got]
        if need is None:
            body = octets[2:].lower() or '-'
            yield octets, 'other %d body %s\n' % (int(octets[:2], 16), body), 0
            continue
        telling, least, needed = need if isinstance(need, tuple) else (1, need, need)
        yield octets, wrong_length(least if got < telling else needed, got), 1


check = Check()
for message, need, text in MESSAGES:
    row(check, 'message ' + message, 'show', message, text + '\n', 0)
    for octets, expected, status in at_other_lengths(message, need, text):
        row(check, 'message %s, of %d octets' % (message, len(octets) // 2), 'show', octets, expected, status)
for line, needed, got in COUNTS:
    row(check, 'a count that lies: ' + line, 'show', line, wrong_length(needed, got), 1)
TABLES = {'wide times': WIDE_TIMES, 'lines': LINES, 'longest': LONGEST, 'largest': LARGEST, 'deep': DEEP}
for heading, table in TABLES.items():
    for text, expected, status in table:
        row(check, '%s: %s, %d octets' % (heading, in_short(text), len(text)), 'show', text, expected, status)
check.end()
