#!/usr/bin/env -S python3 -B
"""`check` and `record` on tables of transcripts, each with what docs/FORMATS.md requires: rules kept and broken, two broken
by one line, faulty lines, the longest transcripts. A transcript for each rule by itself is in examples/ and is run by
`tests/examples.sh`. Last line: `N passed, M failed`."""

from support.check import Check
from support.tables import MOST_OCTETS, in_short, lines_that_fit, row

# 255 entries of input 0, state 0 and stamp 0.
FULL = '000000' * 255

WORKED = [
    ('> 3301400505\n< b301', 'good 2 frames'),
    ('> 33010c0101\n> 3600\n< b600010c00010000000001', 'good 3 frames'),
    ('> 3605\n> 3606', 'line 2 breaks advance'),
    ('> 3605\n<b6050000000003e8', 'line 2: bad line'),
]

LINES = [
    ('', 'good 0 frames'),
    # Numbers count the lines of the text, and frames the lines that have content.
    ('# a remark\n\n> 3605\n#\n< B6050000000003E8\n\n', 'good 2 frames'),
    ('# a remark\n> 3605\n\n< b6060000000003e8\n', 'line 4 breaks number'),
    # A bad line is reported whatever the lines before it break.
    ('> 33\n< b300\n> zz', 'line 3: bad line'),
    ('> 33\n#\n> 3605\n>3605\n> zz', 'line 4: bad line'),
    ('> ', 'line 1: bad line'),
    ('>  3605', 'line 1: bad line'),
    ('> 3605 ', 'line 1: bad line'),
    ('> 360', 'line 1: bad line'),
    ('> 3605\r\n', 'line 1: bad line'),
    (' > 3605', 'line 1: bad line'),
    # A line that begins with # is skipped, but none that begins with anything else.
    ('# x\n; x', 'line 2: bad line'),
    ('> 3605\n; < b6050000000003e8', 'line 2: bad line'),
    ('3605', 'line 1: bad line'),
]

FIRST_LINES = [
    ('> 3605', 'good 1 frames'),
    ('> 38', 'good 1 frames'),
    ('< b300', 'line 1 breaks pair'),
    ('< bc', 'line 1 breaks pair'),
    ('< b3', 'line 1 breaks readable'),
    ('< 3605', 'line 1 breaks readable'),
    ('> b300', 'line 1 breaks readable'),
    # A transcript that begins in the middle: the first answer may have E or G, and not both.
    ('> 3605\n< b605000200000000', 'good 2 frames'),
    ('> 3605\n< b605000100000000', 'good 2 frames'),
    ('> 3605\n< b605000300000000', 'line 2 breaks sequence'),
    ('> 3605\n> 3605\n< b605000200000000', 'good 3 frames'),
    ('> 3605\n> 3605\n< b605000100000000', 'good 3 frames'),
    # The number after 255 is 0.
    ('> 36ff\n< b6ff000000000000\n> 3600\n< b600000000000000', 'good 4 frames'),
    ('> 36ff\n> 3600', 'line 2 breaks advance'),
    ('> 3600\n< b600000000000000\n> 36ff', 'line 3 breaks advance'),
]

ANSWERS = [
    ('> 3100\n< b100000000000000', 'good 2 frames'),
    ('> 3200000000\n< b200', 'good 2 frames'),
    ('> 34\n< b4000000000000000000000000', 'good 2 frames'),
    ('> 35\n< b5000000000000000000000000', 'good 2 frames'),
    ('> 34\n< b5000000000000000000000000', 'line 2 breaks pair'),
    ('> 3700000000000000000000000000000000\n< b7', 'good 2 frames'),
    ('> 38\n< b8\n> 39\n< b9', 'good 4 frames'),
    ('> 38\n< b9', 'line 2 breaks pair'),
    ('> 3a05\n< ba00\n> 3b\n< bb\n> 3c\n< bc02', 'good 6 frames'),
    ('> 3605\n< b500', 'line 2 breaks readable'),
    ('> 3c\n< b605000000000000', 'line 2 breaks pair'),
    ('> 3c\n< bc02\n< bc02', 'line 3 breaks pair'),
    # What comes between a poll and the next one changes nothing, except for a block.
    ('> 3605\n> 3c\n< bc02\n> 3605', 'good 4 frames'),
    ('> 3605\n< b605000000000000\n> 3c\n> 3606', 'good 4 frames'),
]

BITS_WITHOUT_A_NAME = [
    ('> 3605\n< b60500f000000000', 'good 2 frames'),
    ('> 3605\n< b605ff' + FULL + 'f800000000', 'good 2 frames'),
    ('> 3605\n< b605ff' + FULL + 'fc00000000', 'good 2 frames'),
    ('> 3605\n< b605ff' + FULL + 'f400000000', 'line 2 breaks limits'),
    ('> 3605\n< b60500f800000000', 'line 2 breaks limits'),
    ('> 3605\n< b60500f300000000', 'line 2 breaks sequence'),
    ('> 3605\n< b605000000000000\n> 3606\n< b60600f200000000', 'line 4 breaks same'),
    ('> 3605\n< b605000000000000\n> 3606\n< b60600f100000000', 'line 4 breaks sequence'),
    ('> 3605\n< b605ff' + FULL + 'f800000000\n> 3606\n< b60600f000000000', 'line 4 breaks rest'),
    ('> 3301400505\n< b3fe', 'line 2 breaks refusal'),
    ('> 3301400505\n< b3ff', 'good 2 frames'),
]

INPUTS_ABOVE_63 = [
    ('> 3605\n< b605013f00000000000000', 'good 2 frames'),
    ('> 3605\n< b60501bf00000000000000', 'good 2 frames'),
    ('> 3605\n< b605014000000000000000', 'line 2 breaks limits'),
    ('> 3605\n< b60501c000000000000000', 'line 2 breaks limits'),
    ('> 3605\n< b605020000004000000000000000', 'line 2 breaks limits'),
    ('> 33013f0505\n< b300', 'good 2 frames'),
    ('> 3301bf0505\n< b300', 'good 2 frames'),
    ('> 3301c00505\n< b300', 'line 2 breaks refusal'),
    ('> 3302000505400505\n< b300', 'line 2 breaks refusal'),
    ('> 3302000505400505\n< b301', 'good 2 frames'),
    ('> 33010c0505\n< b301', 'good 2 frames'),
]

# A transcript without a fault.
GOOD = [
    '> 3c',
    '< bc02',
    '> 33010c0505',
    '< b300',
    '> 3605',
    '< b605018c03e700000003e8',
    '> 3606',
    '> 3606',
    '< b6060002000003e9',
    '> 3607',
    '< b607ff' + FULL + '08000003ea',
    '> 3608',
    '< b608018c03ea00000003eb',
    '> 3100',
    '< b1000000000003ec',
    '> 3609',
    '< b6090000000003ed',
]

# What is written if the line with this number is another.
CHANGES = [
    (1, '> 3c', 'good 17 frames'),
    (3, '> 33020c0505', 'line 3 breaks readable'),
    (4, '< b200', 'line 4 breaks pair'),
    (6, '< b604018c03e700000003e8', 'line 6 breaks number'),
    (7, '> 3605', 'line 7 breaks advance'),
    (8, '> 3607', 'line 8 breaks advance'),
    (13, '< b608018c03ea02000003eb', 'line 13 breaks same'),
    (9, '< b6060003000003e9', 'line 9 breaks sequence'),
    (13, '< b608018c03ea01000003eb', 'line 13 breaks sequence'),
    (11, '< b607ff' + FULL + '04000003ea', 'line 11 breaks limits'),
    (13, '< b608018c03ea08000003eb', 'line 13 breaks limits'),
    (13, '< b60801cc03ea00000003eb', 'line 13 breaks limits'),
    (13, '< b6080000000003eb', 'line 13 breaks rest'),
    (3, '> 33014c0505', 'line 4 breaks refusal'),
    (10, '', 'line 11 breaks pair'),
    (11, '', 'line 12 breaks advance'),
]

# The last line breaks two rules, the second directly after the first among those that a block answer can break, and the
# first of them is reported. Only polls break `advance`, and only answers 179 break `refusal`.
TWO_RULES = [
    # Pair and number: a block answer after another answer, and after another command than a poll.
    ('> 3605\n< b605000000000000\n< b606000000000000', 'line 3 breaks pair'),
    ('> 3605\n> 3c\n< b606000000000000', 'line 3 breaks pair'),
    # Number and same: another number than the poll's, and E at the first poll with its number.
    ('> 3605\n< b605000000000000\n> 3606\n< b607000200000000', 'line 4 breaks number'),
    # Same and sequence: E at the first poll with its number, and G with E.
    ('> 3605\n< b605000000000000\n> 3606\n< b606000300000000', 'line 4 breaks same'),
    # Sequence and limits: G with E or after another block answer, and F without C.
    ('> 3605\n< b605000700000000', 'line 2 breaks sequence'),
    ('> 3605\n< b605000000000000\n> 3606\n< b606000500000000', 'line 4 breaks sequence'),
    # Limits and rest: F without C, and no entries although more waited.
    ('> 3605\n< b605ff' + FULL + '0800000000\n> 3606\n< b606000400000000', 'line 4 breaks limits'),
    # A line that spells no message breaks the first rule, whatever its first octet would break.
    ('< b606', 'line 1 breaks readable'),
    ('> 3605\n< b605000000000000\n< b606', 'line 3 breaks readable'),
    ('> 3301400505\n< b30000', 'line 2 breaks readable'),
    # An answer 179 after another answer has no command that names an input.
    ('> 3301400505\n< b301\n< b300', 'line 3 breaks pair'),
]


# What `record` writes: the record of a transcript that is good from its first command on, otherwise the breach as `check` does.
RECORDS = [
    ('', 'record 0'),
    ('> 3c\n< bc02', 'record 0'),
    ('> 3605', 'record 0'),
    ('> 3605\n< b605018c03e700000003e8', 'record 1\ninput 12 state 1 stamp 999 wide 999'),
    # A stamp above the low 16 bits of the answer's stamp belongs to the 65,536 steps before.
    ('> 36ff\n< b6ff0205ffff8600010000010001\n> 3600\n< b600000000010002',
     'record 2\ninput 5 state 0 stamp 65535 wide 65535\ninput 6 state 1 stamp 1 wide 65537'),
    # A gap mark comes before the entries of a block with F.
    ('> 3605\n< b605ff' + '000000' * 254 + '850007' + '0c00000008',
     'record 256\ngap\n' + 'input 0 state 0 stamp 0 wide 0\n' * 254 + 'input 5 state 1 stamp 7 wide 7'),
    # What is heard after other commands, and an unanswered poll, add nothing.
    ('> 3605\n> 3605\n< b605010000010200000001\n> 34\n< b4000000000000000000000000\n> 3606\n< b606018000020000000002',
     'record 2\ninput 0 state 0 stamp 1 wide 1\ninput 0 state 1 stamp 2 wide 2'),
    ('> 3605\n< b605018c03e700000003e8\n> 3605', 'line 3 breaks advance'),
    ('# a remark\n> 3605\n\n< b6060000000003e8\n', 'line 4 breaks number'),
    ('> 3605\n< b605018c03e700000003e8\n> zz', 'line 3: bad line'),
    # What is heard above the first command is passed over, whatever it is; lines count from the first of the input.
    ('< b301\n> 3605\n< b605018c03e700000003e8', 'record 1\ninput 12 state 1 stamp 999 wide 999'),
    ('< b606\n< b605018c03e700000003e8\n< b605018c03e700000003e8', 'record 0'),
    ('< b301\n> 3605\n< b605018c03e700000003e8\n> 3605', 'line 4 breaks advance'),
    ('< b301\n> 3605\n< b301', 'line 3 breaks pair'),
    ('< b301\n> 36\n< b301', 'line 2 breaks readable'),
    ('< b301\n< zz\n> 3605', 'line 2: bad line'),
    ('\n' * (MOST_OCTETS + 1), 'input too long'),
]


def block(number):
    """A poll and its answer, a block of 255 entries after which more wait."""
    return '> 36%02x\n< b6%02xff%s0800000000\n' % (number, number, FULL)


BLOCKS = lines_that_fit(block(0))

LARGEST = [
    ('> ' + '30' * 774, 'line 1 breaks readable'),
    # A word of 65,536 digits.
    ('> ' + '38' * 32_768, 'line 1 breaks readable'),
    ('> 34\n' * 65_536, 'good 65536 frames'),
    ('> 34\n' * 65_537, 'good 65537 frames'),
    ('\n' * (MOST_OCTETS + 1), 'input too long'),
    ('\n' * MOST_OCTETS, 'good 0 frames'),
    ('#' * MOST_OCTETS, 'good 0 frames'),
    # The shortest lines that have content.
    ('> 34\n' * lines_that_fit('> 34\n'), 'good 209715 frames'),
    # One line.
    ('> ' + '38' * (MOST_OCTETS // 2 - 1), 'line 1 breaks readable'),
    ('?' * MOST_OCTETS, 'line 1: bad line'),
    # The longest frames.
    (''.join(block(turn % 256) for turn in range(BLOCKS)), 'good %d frames' % (2 * BLOCKS)),
    (''.join(block(turn % 256) for turn in range(BLOCKS)) + '> 3600', 'line %d breaks advance' % (2 * BLOCKS + 1)),
    (('> 38' + '07' * 772 + '\n') * lines_that_fit('> 38' + '07' * 772 + '\n'), 'good 676 frames'),
]

# Good frames, followed by a line that breaks a rule or is bad.
DEEP = []
for count in (65_535, 65_538, 70_001, 100_000, 131_073, 150_000, 200_000, 209_000, 209_714):
    DEEP.append(('> 34\n' * count, 'good %d frames' % count))
for count in (65_535, 65_536, 70_001, 100_000, 131_073, 150_000, 200_000, 209_000):
    DEEP.append(('> 34\n' * count + '< b300', 'line %d breaks pair' % (count + 1)))
    DEEP.append(('> 34\n' * count + '> zz', 'line %d: bad line' % (count + 1)))
    DEEP.append(('\n' * 5 * count + '< b300', 'line %d breaks pair' % (5 * count + 1)))


def changed(number, line):
    return '\n'.join(line if place == number else kept for place, kept in enumerate(GOOD, 1))


TABLES = {
    'worked': WORKED, 'lines': LINES, 'first lines': FIRST_LINES, 'answers': ANSWERS,
    'bits without a name': BITS_WITHOUT_A_NAME, 'inputs above 63': INPUTS_ABOVE_63, 'two rules': TWO_RULES,
    'largest': LARGEST, 'deep': DEEP,
}

check = Check()
for heading, table in TABLES.items():
    for text, expected in table:
        row(check, '%s: %s, %s, %d octets' % (heading, expected, in_short(text), len(text)), 'check', text, expected + '\n',
            0 if expected.startswith('good ') else 1)
for text, expected in RECORDS:
    row(check, 'record %s' % in_short(text), 'record', text, expected + '\n',
        0 if expected.startswith('record ') else 1)
for text, expected in DEEP:
    kept = expected.startswith('good ') or '>' not in text
    row(check, 'record, deep: %s, %s, %d octets' % (expected, in_short(text), len(text)), 'record', text,
        'record 0\n' if kept else expected + '\n', 0 if kept else 1)
for number, line, expected in CHANGES:
    row(check, 'line %d changed: %s, %s' % (number, expected, line[:40]), 'check', changed(number, line),
        expected + '\n', 0 if expected.startswith('good ') else 1)
check.end()
