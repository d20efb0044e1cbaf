#!/usr/bin/env -S python3 -B
"""`simulate` on tables of scripts, each with the report that is written out beside it: runs to the end, refused events,
faulty scripts, the largest scripts. The scripts of examples/ are run by `tests/examples.sh`, and longer ones, whose reports
are computed, by `tests/computed-reports.py`. Last line: `N passed, M failed`."""

from support.check import Check
from support.tables import MOST_OCTETS, MOST_WAITING, in_short, lines_that_fit, row

HEADER = 'fio2070 script 1 2 0\n'

# Each with its name.
RUNS = [
    ('a restart loses the kept block, and the answer from before it is never delivered', '''fio2070 script 2 2 0
send 3301000101
to-module 1
scan feffffffffffffff
poll
to-module 2
restart
to-module 2
to-cpu 3
''', '''1 sent 1 3301000101
2 sent 1 b300
3 quiet
4 sent 2 3600
5 sent 2 b600010000010000000001
6 quiet
7 sent 3 b600000000000000
8 block entries 0 status 00
counter 0
number 1
waiting 0
record 0
'''),
    ('a restart, and the answer from before it is delivered, with the standard limits written out', '''fio2070 script 3 2 0 255 1024
send 3301000101
to-module 1
scan feffffffffffffff
poll
to-module 2
restart
to-module 2
to-cpu 2
to-cpu 3
''', '''1 sent 1 3301000101
2 sent 1 b300
3 quiet
4 sent 2 3600
5 sent 2 b600010000010000000001
6 quiet
7 sent 3 b600000000000000
8 block entries 1 status 00
9 stale 0
counter 0
number 1
waiting 0
record 1
input 0 state 0 stamp 1 wide 1
'''),
    ('a restart keeps the limits: the blocks after it have one entry too', '''fio2070 script 3 2 0 1 1024
restart
send 33020001010c0101
to-module 1
scan feefffffffffffff
poll
to-module 2
to-cpu 2
''', '''1 quiet
2 sent 1 33020001010c0101
3 sent 1 b300
4 quiet
5 sent 2 3600
6 sent 2 b600010000010800000001
7 block entries 1 status 08
counter 1
number 1
waiting 1
record 1
input 0 state 0 stamp 1 wide 1
'''),
    ('a command without an answer, and an answer that is no block', HEADER + 'send 38\nsend 3c\nto-module 1\nto-module 2\nto-cpu 1', '''1 sent 1 38
2 sent 2 3c
3 quiet
4 sent 1 bc02
5 other 188
counter 0
number 0
waiting 0
record 0
'''),
    ('no event', HEADER[:-1], 'counter 0\nnumber 0\nwaiting 0\nrecord 0\n'),
    ('numbers with zeros before them', 'fio2070 script 2 002 255\n', 'counter 0\nnumber 255\nwaiting 0\nrecord 0\n'),
    ('an answer that comes twice, and block 0 after block 255', '''fio2070 script 1 2 255
poll
to-module 1
to-cpu 1
to-cpu 1
''', '''1 sent 1 36ff
2 sent 1 b6ff000000000000
3 block entries 0 status 00
4 stale 255
counter 0
number 0
waiting 0
record 0
'''),
    ('octets and inputs, in digits of both cases', HEADER + '''raise 0A
send 3100
to-module 1
scan FE00000000000080
send 34
to-module 2
''', '''1 quiet
2 sent 1 3100
3 sent 1 b18a000000000000
4 quiet
5 sent 2 34
6 sent 2 b4fe0000000000008000000001
counter 1
number 0
waiting 0
record 0
'''),
]

REFUSED_EVENTS = [
    (HEADER + 'send 3605', '1 refused poll is ours\n'),
    (HEADER + 'to-cpu 1', '1 refused not sent 1\n'),
    (HEADER + 'to-module 0\npoll', '1 refused not sent 0\n'),
    # No frame has the number 0, also if a frame was delivered already.
    (HEADER + 'poll\nto-module 1\nto-module 0',
     '1 sent 1 3600\n2 sent 1 b600000000000000\n3 refused not sent 0\n'),
    (HEADER + 'to-module 000000005', '1 refused not sent 5\n'),
    (HEADER + 'to-module 999999999', '1 refused not sent 999999999\n'),
    # The fourth event is refused, and the fifth does not happen.
    (HEADER + 'poll\npoll\nto-module 2\nto-module 1\npoll\n',
     '1 sent 1 3600\n2 sent 2 3600\n3 sent 1 b600000000000000\n4 refused out of order 1 after 2\n'),
]

BAD_HEADERS = [
    '',
    '\nfio2070 script 1 2 0',
    '#\nfio2070 script 1 2 0',
    '# a remark\nfio2070 script 1 2 0\npoll\n',
    '\n\nfio2070 script 2 2 0\npoll\n',
    '#\nfio2070 script 3 2 0 255 1024\npoll\n',
    'fio2070 script 9 2 0',
    'fio2070 script 1 2',
    'fio2070 script 1 2 0 ',
    'fio2070 script 1 2 0\r',
    'fio2070 script 1 256 0',
    'fio2070 script 1 2 256',
    'fio2070 script 1 2 0000000000',
    'fio2070 script 1 2 0 255 1024',
    'fio2070 script 3 2 0',
    'fio2070 script 3 2 0 256 1024',
    'fio2070 script 3 2 0 0 1024',
    'fio2070 script 3 2 0 1 1023',
    'fio2070 script 3 2 0 1 %d' % (MOST_WAITING + 1),
    # 66,560 is 1,024 more than 65,536, and 257 is one more than 256.
    'fio2070 script 3 2 0 1 66560',
    'fio2070 script 3 2 0 257 1024',
]

# The first fault counts.
FAULTS = [
    (HEADER + 'send 33', 'line 2: bad frame wrong length needed 2 got 1'),
    (HEADER + 'send ' + '38' * 774, 'line 2: bad frame too long got 774'),
    (HEADER + 'send ' + '30' * 774, 'line 2: bad frame too long got 774'),
    (HEADER + 'send b300', 'line 2: bad frame unknown type 179'),
    (HEADER + 'send 3', 'line 2: bad line'),
    (HEADER + 'scan 00', 'line 2: bad line'),
    (HEADER + 'poll ', 'line 2: bad line'),
    (HEADER + 'restart', 'line 2: bad line'),
    (HEADER + '''send 3301000101
to-module 1
scan feffffffffffffff
poll
to-module 2
restart
to-module 2
to-cpu 2
to-cpu 3
''', 'line 7: bad line'),
    (HEADER + '\n# zz\npoll\nzz\nsend 33', 'line 5: bad line'),
    # A line that begins with # is skipped, but none that begins with anything else.
    (HEADER + '# x\n; x\npoll', 'line 3: bad line'),
    (HEADER + '\nrestart\n', 'line 3: bad line'),
    ('fio2070 script 2 2 0\nto-cpu 1\nsend 3\n', 'line 3: bad line'),
    ('fio2070 script 2 2 0\npoll\nsend 36\n', 'line 3: bad frame wrong length needed 2 got 1'),
    (HEADER + 'send 33\nzz', 'line 2: bad frame wrong length needed 2 got 1'),
    (HEADER + 'poll\n' * 10_001, 'line 10002: too many events'),
    (HEADER + 'poll\n' * 10_000 + 'send 33', 'line 10002: too many events'),
    (HEADER + 'poll\n' * 10_000 + 'zz', 'line 10002: too many events'),
    (HEADER + 'poll\n' * 9_999 + 'zz\npoll\npoll', 'line 10001: bad line'),
    # Words of 65,536 digits.
    (HEADER + 'send ' + '38' * 32_768, 'line 2: bad frame too long got 32768'),
    (HEADER + 'scan ' + '38' * 32_768, 'line 2: bad line'),
    ('\n' * (MOST_OCTETS + 1), 'input too long'),
    # One line, and it is not a header.
    ('f' * MOST_OCTETS, 'line 1: bad header'),
    # One line after the header: a word of 1,048,550 digits.
    (HEADER + 'send ' + '38' * 524_275, 'line 2: bad frame too long got 524275'),
]

# Words that spell no octets, no octet, no inputs, no number.
FAULTS += [(HEADER + line, 'line 2: bad line') for line in (
    'send ', 'send b1fF0', 'send zz', 'send 36 05', 'send 3605\r', 'raise a', 'raise 0a0a', 'raise 0g', 'raise ',
    'scan 000000000000000000', 'scan 000000000000000g', 'to-cpu 0000000005', 'to-cpu 1000000000', 'to-cpu +5', 'to-cpu 5 ',
    'to-cpu 5a', 'to-cpu ', 'to-cpu', 'to-module 5 6', 'to-', 'polls', '\r')]

# Faults far into a text.
for skipped in (10_001, 13_000, 65_533, 65_534, 65_535, 70_000, 131_072, 500_000, 1_000_000):
    FAULTS += [
        (HEADER + '\n' * skipped + 'zz', 'line %d: bad line' % (skipped + 2)),
        (HEADER + '\n' * skipped + 'send 33', 'line %d: bad frame wrong length needed 2 got 1' % (skipped + 2)),
    ]
for sent in (8_999, 9_000, 9_500, 9_999):
    FAULTS.append((HEADER + 'poll\n' * sent + 'send 33', 'line %d: bad frame wrong length needed 2 got 1' % (sent + 2)))
# After 1,270 frames of 401 octets, and after 9,999 scans.
FAULTS += [
    (HEADER + ('send 38%s\n' % ('07' * 400)) * 1_270 + 'zz', 'line 1272: bad line'),
    (HEADER + 'scan 0000000000000000\n' * 9_999 + 'zz', 'line 10001: bad line'),
]

NOTHING_RECORDED = 'counter 0\nnumber 0\nwaiting 0\nrecord 0\n'


def each_sent(frame, count):
    """The report of a script that sends this number of such frames, and does nothing else."""
    return ''.join('%d sent %d %s\n' % (place, place, frame) for place in range(1, count + 1)) + NOTHING_RECORDED


# A body of 772 octets, and how many such commands an input may have.
LONGEST = '38' + '07' * 772
COMMANDS = lines_that_fit('send %s\n' % LONGEST, above=HEADER)

LARGEST = [
    *[('%d events' % count, HEADER + 'poll\n' * count + '# the end\n\n', each_sent('3600', count))
      for count in (9_000, 9_998, 9_999, 10_000)],
    ('the most events and the most octets', (HEADER + 'poll\n' * 10_000).ljust(MOST_OCTETS, '\n'),
     each_sent('3600', 10_000)),
    ('the most empty lines', HEADER.ljust(MOST_OCTETS, '\n'), NOTHING_RECORDED),
    ('the longest remark', HEADER.ljust(MOST_OCTETS, '#'), NOTHING_RECORDED),
    ('the longest commands', HEADER + ('send %s\n' % LONGEST) * COMMANDS, each_sent(LONGEST, COMMANDS)),
]

check = Check()
for name, text, expected in RUNS + LARGEST:
    row(check, name, 'simulate', text, expected, 0)
for text, expected in REFUSED_EVENTS:
    row(check, 'a refused event: ' + in_short(text), 'simulate', text, expected, 1)
for text in BAD_HEADERS:
    row(check, 'a bad header: ' + in_short(text), 'simulate', text, 'line 1: bad header\n', 1)
for text, expected in FAULTS:
    row(check, '%s: %s, %d octets' % (expected, in_short(text), len(text)), 'simulate', text, expected + '\n', 1)
check.end()
