"""Frames and transcripts for the checks of the tools outside the proof: those of the protocol's tables, those of
`examples/`, and random ones."""

import glob
import os
import random
import re

from support.messages import KNOWN, LENGTHS
from support.tables import TOP

# Messages of docs/PROTOCOL.md, one or more of each type, and frames with a fault.
MESSAGES = '''
3605 3200010000 33020c0503830000 3700000000000000010000000000000000 38 b1800001000003e8 b2fe
b4feffffffffffffff00000001 b6050000000003e8 b605018c03e700000003e8 bc02
b600030cfffe0c00030c00020000010002 b600010cfffe0000000005
31a5 34 35 3901 3a05 3b0aff 3c b301 b5feffffffffffffff00000001 b70000000005 b8 b901 ba01 bb
30 33 3605ff b6 b60502 b605028c03e700000003e8 b605ff8c03e700000003e8 b605 ff 00 7f 80 3300 33013f0000 3301400101
b606020c0001bf00020f000000ff b60701ffffff04ffffffff b60801400000f000000000
'''.split()
LONG_MESSAGES = ['b605ff' + '8c03e7' * 255 + '08000003e8', '33ff' + '0c0503' * 255, '38' + '5a' * 772, '30' * 773,
                 '30' * 774, 'b6' * 900, 'bb' + '00' * 773]


def table_frames():
    """Each message of the tables, cut after each octet and with one octet too many; each first octet alone and followed by
    seven octets."""
    for text in MESSAGES:
        octets = bytes.fromhex(text)
        yield from (octets[:cut] for cut in range(1, len(octets) + 1))
        yield octets + b'\0'
    for text in LONG_MESSAGES:
        octets = bytes.fromhex(text)
        yield from (octets[:cut] for cut in (1, 2, 3, 4, 8, 9, len(octets) - 3, len(octets) - 1, len(octets)))
        yield octets + b'\0'
    for kind in range(256):
        yield bytes([kind])
        yield bytes([kind]) + bytes(range(7))


def random_block(draw, number, count):
    """A block answer with this number and this many random entries."""
    status = bytes([draw.choice([0, 0, 1, 2, 4, 8, 12, draw.randrange(256)])])
    stamp = draw.choice([draw.randrange(1 << 32), draw.randrange(1 << 17)]).to_bytes(4, 'big')
    return bytes([182, number, count]) + draw.randbytes(3 * count) + status + stamp


def random_message(draw):
    """The octets of some message."""
    kind = draw.choice(KNOWN + [51, 54, 182, 182, 182])
    count = draw.choice([0, 1, 2, 3, 8, draw.randrange(256)]) if draw.random() < 0.3 else draw.randrange(4)
    if kind == 182:
        return random_block(draw, draw.randrange(256), count)
    if kind == 51:
        return bytes([kind, count]) + draw.randbytes(3 * count)
    return bytes([kind]) + draw.randbytes(LENGTHS.get(kind, draw.randrange(20)))


def random_frame(draw):
    """The octets of some message, one time in five with some removed, appended or changed."""
    octets, change = random_message(draw), draw.random()
    if change < 0.08:
        return octets[:draw.randrange(1, len(octets) + 1)]
    if change < 0.14:
        return octets + draw.randbytes(draw.randrange(1, 4))
    if change < 0.2:
        place = draw.randrange(min(len(octets), 4))
        return octets[:place] + draw.randbytes(1) + octets[place + 1:]
    return octets


def random_frames(seed, count):
    draw = random.Random(seed)
    return [random_frame(draw) for _ in range(count)]


def random_transcript(draw, length):
    """Commands and answers in an order that a good or a bad line could give: answers that are missing, late, doubled or not
    asked for, and polls that repeat, skip or go on."""
    frames, number = [], draw.randrange(256)
    for _ in range(length):
        kind = draw.random()
        if kind < 0.4:
            number = (number + draw.choice([0, 1, 1, 1, 2, 255, draw.randrange(256)])) % 256
            frames.append(bytes([54, number]))
        elif kind < 0.7:
            frames.append(random_block(draw, (number - draw.choice([0, 0, 0, 0, 1, 2])) % 256, draw.randrange(3)))
        elif kind < 0.8 and frames:
            frames.append(frames[-1])
        else:
            frames.append(random_frame(draw))
    return frames


def random_transcripts(seed, count, length):
    draw = random.Random(seed)
    return [random_transcript(draw, draw.randrange(1, length)) for _ in range(count)]


def example_transcripts():
    """The frames of each transcript of `examples/`."""
    for path in sorted(glob.glob(os.path.join(TOP, 'examples', '*.transcript'))):
        with open(path, encoding='ascii') as text:
            frames = re.findall(r'^[<>] ((?:[0-9A-Fa-f]{2})+)$', text.read(), re.MULTILINE)
        if frames:
            yield [bytes.fromhex(frame) for frame in frames]
