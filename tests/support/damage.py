"""Damage to logs: logs with damage of one kind each, which fiolog and the page refuse or remark on; and lines that are damaged by
chance."""

# What is damaged, the lines, the frames that are read, and a reason or a remark on the others.
DAMAGED = [
    ('a cut frame with a count', 'RX (8): B6 05 00 00 00 00 00 01\nTX (2): 36 06\nRX (8): B3 00\n', 2, 'its count says 8'),
    ('a wrong count above right ones', 'RX (8): B3 00\n' + 'TX (2): 36 06\n' * 3, 4, 'line 1 may be damaged: its count says 8'),
    ('an array with a row missing', 'uint8_t tx[2] = { 0x36, 0x05 };\nuint8_t rx[14] = {\n  0xb3,\n  0x00,\n};\n', 1,
     'the array has a length of 14'),
    ('a digit lost', 'RX 0xB3, 0x00\nTX 0x36, 0x5\n', 1, 'an octet has one digit'),
    ('a digit lost above whole ones', 'TX 0x36, 0x5\nRX 0xB3, 0x00\nTX 0x36, 0x07\n', 3, 'line 1 may be damaged: an octet has one digit'),
    ('the beginning lost', '07:15:02.100 RX B6 05 00 00 00 00 00 01\n' * 9 + '36 05\n', 9, 'may be cut'),
    ('half an escape', "sent b'\\xb3\\x00'\nsent b'\\xb3\\x0'\n", 1, ''),
    ('an octet a row', 'Time [s],Value\n0.1,0x36\n0.100065,0x05\n0.2,0x34\n', 2, 'each row has one octet'),
    ('an octet a row, one missing', 'Time [s],Value\n0.1,0x36\n0.100065,0x05\n0.2,0xBB\n0.200065,0x01\n0.200195,0x02\n', 1,
     'a row may be missing'),
    ('an octet a row, the first missing', 'name,start_time,data\n' + ''.join('%s,%.6f,0x%02X\n' % (name, time, octet) for name, time, octet in [
        ('CPU', 0.1, 0x36), ('CPU', 0.100065, 5), ('FIO', 0.2, 0x36), ('FIO', 0.200065, 6)]), 1, 'the other direction'),
    ('numbers', 'TX [54, 5]\nRX [182, 5, 0, 0, 0, 0, 0, 1]\n', 2, 'if the log lost a digit, nothing shows it'),
    ('hexadecimal numbers', "TX ['0x36', '0x5']\nTX ['0x36', '0x15']\n", 2, 'frames whose octets are numbers without leading zeros: 1'),
    ('a list of words that is cut', "INFO:root:tx ['0x36', '0x5']\nINFO:root:rx ['0xb6', '0x1', '0x', '0x34'\n", 1, ''),
    ('a type of any length', 'TX 36 05\nRX BB 01 02\n', 2, 'frames of types that may have any length: 1'),
]

# What damage does to a line, at a place in it.
CUT_OR_LOST = [lambda line, cut: line[:cut], lambda line, cut: line[cut:], lambda line, cut: line + line, lambda line, cut: '',
               lambda line, cut: line[:cut] + line[cut + 1:], lambda line, cut: line[:cut] + ' ' + line[cut:]]
DAMAGES = [*CUT_OR_LOST, lambda line, cut: line[:cut] + '?' + line[cut + 1:]]


def damaged(text, draw, count, damages=DAMAGES):
    """A log of which this many lines are damaged."""
    lines = text.split('\n')
    for place in draw.sample(range(len(lines)), min(count, len(lines))):
        lines[place] = draw.choice(damages)(lines[place], draw.randrange(len(lines[place]) + 1))
    return '\n'.join(lines)
