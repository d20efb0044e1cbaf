"""Text of other programs, in which no frame of the link is written but by chance: with numbers, times, hexadecimal ids, addresses,
and dumps of other protocols. Each log is of one kind."""

import base64
import random
import uuid

WORDS = 'link up down error retry queue open closed rate sensor timeout state value user port phase detector'.split()


def digits(draw, count, form='%02x', between=' '):
    return between.join(form % draw.randrange(256) for _ in range(count))


def address(draw):
    return '.'.join(str(draw.randrange(256)) for _ in range(4))


def clock(draw, number):
    return '2026-11-22 %02d:%02d:%02d.%03d' % (number // 3600 % 24, number // 60 % 60, number % 60, draw.randrange(1000))


def words(draw, most=6):
    return ' '.join(draw.choice(WORDS + [str(draw.randrange(10 ** draw.randrange(1, 6)))]) for _ in range(draw.randrange(1, most)))


def modbus(draw):
    return '%02X %02X %s' % (draw.randrange(1, 32), draw.choice((1, 3, 4, 6, 16)), digits(draw, draw.randrange(4, 24), '%02X'))


# A line of each kind, by a source of chance and the number of the line.
KINDS = {
    'a log of words': lambda d, n: '%s %s' % (clock(d, n), words(d)),
    'syslog': lambda d, n: 'Nov 22 %02d:%02d:%02d host kernel[%d]: %s' % (n // 3600 % 24, n // 60 % 60, n % 60, d.randrange(9999), words(d)),
    'addresses of a kernel': lambda d, n: '[%5d.%06d] %s at %016x size %d' % (n, d.randrange(10 ** 6), d.choice(WORDS), d.getrandbits(64), d.randrange(4096)),
    'a web server': lambda d, n: '%s - - [22/Nov/2026:07:15:%02d +0000] "GET /%x HTTP/1.1" %d %d' % (address(d), n % 60, d.getrandbits(32), d.choice((200, 304, 404)), d.randrange(9999)),
    'commits': lambda d, n: '%s %s' % (d.getrandbits(160).to_bytes(20, 'big').hex()[:d.choice((7, 8, 40))], words(d)),
    'sums of files': lambda d, n: '%032x  %s.bin' % (d.getrandbits(128), d.choice(WORDS)),
    'ids': lambda d, n: '%s %s %s' % (clock(d, n), uuid.UUID(int=d.getrandbits(128)), d.choice(WORDS)),
    'network cards': lambda d, n: '%s dev eth%d lladdr %s' % (address(d), d.randrange(4), digits(d, 6, '%02x', ':')),
    'addresses of version 6': lambda d, n: '%s %s' % (':'.join('%x' % d.getrandbits(16) for _ in range(8)), d.choice(WORDS)),
    'a table of numbers': lambda d, n: ','.join(str(d.randrange(10 ** d.randrange(1, 5))) for _ in range(d.randrange(2, 9))),
    'lists of numbers': lambda d, n: '%s: [%s]' % (d.choice(WORDS), digits(d, d.randrange(2, 12), '%d', ', ')),
    'objects': lambda d, n: '{"id": %d, "t": %.3f, "hex": "%s", "data": [%s]}' % (n, n / 7, digits(d, d.randrange(1, 9), '%02x', ''), digits(d, 3, '%d', ', ')),
    'Modbus': lambda d, n: '%s %s %s' % (clock(d, n), d.choice(('TX', 'RX')), modbus(d)),
    'Modbus in brackets': lambda d, n: ''.join('[%s]' % word for word in modbus(d).split()),
    'CAN': lambda d, n: '(%.6f) can0 %03X#%s' % (1795331702 + n, d.getrandbits(11), digits(d, d.randrange(9), '%02X', '')),
    'I2C': lambda d, n: 'i2c-%d addr 0x%02x %s %s' % (d.randrange(3), d.randrange(128), d.choice('rw'), digits(d, d.randrange(1, 6), '0x%02x')),
    'a dump': lambda d, n: '%08x  %s  |%s|' % (16 * n, digits(d, 16), 'x' * 16),
    'a dump of words': lambda d, n: '%08x: %s' % (16 * n, ' '.join('%04x' % d.getrandbits(16) for _ in range(8))),
    'a packet': lambda d, n: '\t0x%04x:  %s' % (16 * (n % 4), ' '.join('%04x' % d.getrandbits(16) for _ in range(8))),
    'machine code': lambda d, n: '  %6x:\t%-21s\tmov %%r%d' % (4 * n, digits(d, d.randrange(1, 8)), d.randrange(16)),
    'Intel hex': lambda d, n: ':10%04X00%s' % (16 * n & 0xffff, digits(d, 17, '%02X', '')),
    'base64': lambda d, n: base64.b64encode(d.randbytes(d.randrange(3, 48))).decode(),
    'literals': lambda d, n: 'recv(%d, "%s", 4096) = %d' % (d.randrange(3, 9), digits(d, d.randrange(2, 12), '\\x%02x', ''), d.randrange(12)),
    'positions': lambda d, n: '$GPGGA,%06d,%04d.%03d,N,%05d.%03d,W,1,%02d*%02X' % (n, d.randrange(9999), d.randrange(999), d.randrange(99999), d.randrange(999), d.randrange(12), d.randrange(256)),
    'an octet a line': lambda d, n: '%.6f,0x%02X,,' % (n / 1000 + d.random() / 2000, d.randrange(256)),
    'times alone': lambda d, n: '%02d:%02d:%02d' % (n // 3600 % 24, n // 60 % 60, d.randrange(60)),
}


# The frames in 256,000 such lines in logs of 2,000, by the log and the line: none.
BY_CHANCE = {}


def other_text(count, length=2000):
    """Logs of `length` lines each, with `count` lines in all: the name of each, and its text."""
    names = list(KINDS)
    for number in range(count // length):
        name, draw = names[number % len(names)], random.Random(number)
        yield '%s, %d' % (name, number), ''.join(KINDS[name](draw, line) + '\n' for line in range(length))
