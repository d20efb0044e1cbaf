#!/usr/bin/env -S python3 -B
"""`fio2070.Wire`, `WireBits` and `wire_frame` against the model of the line (support/line_model.py): frames written and read,
lines that are damaged in each known way, and hostile lines, in pieces and one by one. Last line: `N passed, M failed`."""

import collections
import os
import random
import sys

from support import line_model as model
from support.check import Check
from support.fiolog import use_library
from support.hostile_lines import hostile_bits, hostile_line, messages
from support.tables import TOP

sys.path.append(os.path.join(TOP, 'examples', 'line'))

POLL = bytes.fromhex('3605')
# Damage that the frame check does not find: what was sent between two flags, and the bits of the line, with its first flag, that
# are turned.
NOT_FOUND = (
    ('a flag that is made', False, '14833605c41b7f010203c444', (56,)),
    ('two bits of a line of bits', True, '1483f0ff80f03ef0fff03e3e0f7cff7c920fc83b', (36, 88)),
    ('13 bits in a row of a line of bits', True, '1483367880f71b7a9c', (40, 44, 51, 52)))
# An address and a control octet; each is one's own if it is None.
ALL = None, None
OWN = model.ADDRESS, model.CONTROL


# What is read -----------------------------------------------------------------------------------------------------------

def due_of(line, settings, is_bits):
    """What the model says of a line."""
    split = model.said_by_bits if is_bits else model.said
    return split(line, *(model.ANY if number is None else number for number in settings))


def heard(line, settings, is_bits, size):
    """What a decoder says of a line in pieces of at most `size`, each with the index of the last octet of its piece. A `LOST` of
    the line is a call of `lose`."""
    import fio2070
    decoder = (fio2070.WireBits if is_bits else fio2070.Wire)(*settings)
    fed, said, place = line.encode() if is_bits else line, [], 0
    while place < len(fed):
        end = place + 1
        if fed[place] is model.LOST:
            decoder.lose()
        else:
            while end < len(fed) and end < place + size and fed[end] is not model.LOST:
                end += 1
            said += [(end - 1, *one) for one in decoder.read(bytes(fed[place:end]))]
        place = end
    return said


def fault_of_read(line, due, settings, is_bits, size):
    """A decoder says of a line what the model says; one by one, each at the end of its part."""
    got = heard(line, settings, is_bits, size)
    if size > 1:
        got, due = [one[1:] for one in got], [one[1:] for one in due]
    return None if got == due else 'in pieces of %d %r says %r, not %r' % (size, line, got, due)


def fault_of_struck(is_bits, frame, flips):
    """A frame with these bits flipped says another message than it had, as the model does: no decoder can know."""
    sent = bytes.fromhex(frame)
    line = model.FLAG_BITS + (model.bit_stuffed(model.bits_of(sent)) if is_bits else model.bits_of(sent)) + model.FLAG_BITS
    line = ''.join(str(int(bit) ^ (place in flips)) for place, bit in enumerate(line))
    if not is_bits:
        line = bytes(int(line[place:place + 8][::-1], 2) for place in range(0, len(line), 8))
    first = due_of(line, ALL, is_bits)[0]
    if first.kind != model.MESSAGE or first.message == sent[2:-2]:
        return 'it says %r' % (first,)
    return fault_of_line(line, is_bits)


def fault_of_line(line, is_bits=False):
    """A line is read right, one by one and in pieces."""
    due = due_of(line, OWN, is_bits)
    return next(filter(None, (fault_of_read(line, due, OWN, is_bits, size) for size in (1, 2, 7, 10_000))), None)


def fault_of_lines(lines, is_bits=False):
    """Each line is read right, with settings and pieces by chance; what they say is of all kinds."""
    dice, kinds = random.Random(1), collections.Counter()
    for line in lines:
        settings, size = dice.choice((ALL, OWN, (0x15, None), (None, 0x83))), dice.choice((1, 2, 7, 64, 5000))
        due = due_of(line, settings, is_bits)
        kinds.update(one.kind for one in due)
        fault = fault_of_read(line, due, settings, is_bits, size)
        if fault:
            return fault
    share = [kinds[kind] / sum(kinds.values()) for kind in (model.MESSAGE, model.OTHER, model.DAMAGED)]
    return None if min(share) > 0.1 else 'the lines are one-sided: %s' % kinds


# Lines ------------------------------------------------------------------------------------------------------------------

def lost_lines():
    """A line with a loss at each place: before the first flag, in a frame, directly after one, in an escape, between flags."""
    line = list(b'\xff' + model.line_of(POLL) + model.line_of(b'\x7e\x7d') + model.line_of(POLL)[1:] + b'\x7e\x7d')
    for place in range(len(line) + 1):
        yield line[:place] + [model.LOST] + line[place:]
        yield line[:place] + [model.LOST] + line[place + 1:]


def too_long(write, flag, more):
    """A line of frames with messages of 772 to 775 octets, each also with more after its check, and a poll."""
    frames = [write(bytes([octet]) * count)[:-len(flag)] for octet in (0, 0x7e) for count in range(772, 776)]
    return flag[:0].join(one for frame in frames for one in (frame, frame + more)) + write(POLL)


def lengths():
    """Messages of each length, and of those that are none."""
    return [bytes([0x7e, 0x7d, 0x36][length % 3:][:1]) * length for length in range(776)]


# Rows -------------------------------------------------------------------------------------------------------------------

def fault_of_checks(count):
    """The frame check is that of the model, and of the check value of CRC-16/X-25."""
    from fio2070 import wire_check
    dice = random.Random(2)
    if wire_check(b'123456789') != 0x906e or wire_check(b'') != 0:
        return 'the check of 123456789, or of nothing'
    return next((octets.hex() for octets in (bytes(dice.choices(range(256), k=dice.randrange(60))) for _ in range(count))
                 if wire_check(octets).to_bytes(2, 'little') != model.frame_check(octets)), None)


def fault_of_written():
    """Messages of 1 to 773 octets are written as the model writes them, and others not."""
    from fio2070 import wire_frame
    dice = random.Random(3)
    for message in lengths() + list(messages(dice, 2000)):
        address, control = dice.choice((0x14, 0x7e, 0x7d, 255)), dice.choice((0x83, 0x7e, 0))
        try:
            written = wire_frame(message, address, control)
        except ValueError:
            written = None
        if written != (model.line_of(message, address, control) if 1 <= len(message) <= 773 else None):
            return 'a message of %d octets: %r' % (len(message), written)
    return None if wire_frame(POLL) == model.line_of(POLL) else 'a poll'


def fault_of_round_trip(is_bits):
    """What the encoder of the model sends is heard, message by message, with flags shared and not, after noise and a flag."""
    import fio2070
    dice = random.Random(4)
    write = model.bit_line_of if is_bits else model.line_of
    flag = model.FLAG_BITS if is_bits else bytes([model.FLAG])
    decoder = (fio2070.WireBits if is_bits else fio2070.Wire)(model.ADDRESS, model.CONTROL)
    line = flag
    sent_all = [message for message in lengths() if 1 <= len(message) <= 773] + list(messages(dice, 500))
    for message in sent_all:
        line += write(message)[dice.choice((0, len(flag), 1 if is_bits else 0)):]
    got = decoder.read(line.encode() if is_bits else line)
    due = [('message', model.ADDRESS, model.CONTROL, message) for message in sent_all]
    return next(((due[place:place + 1], got[place:place + 1]) for place in range(max(len(due), len(got)))
                 if due[place:place + 1] != got[place:place + 1]), None)


def fault_of_own():
    """Only a frame with one's own address and control octet is a message; another is heard with both, and is no damage."""
    import fio2070
    line = b''.join(model.line_of(POLL, *pair) for pair in ((0x14, 0x83), (0x15, 0x83), (0x14, 0x13), (0x7e, 0x7d)))
    for settings, kinds in ((OWN, 'mooo'), (ALL, 'mmmm'), ((0x14, None), 'momo'), ((None, 0x83), 'mmoo'),
                            ((0x7e, 0x7d), 'ooom')):
        got = fio2070.Wire(*settings).read(line)
        if ''.join(one.kind[0] for one in got) != kinds or [one.message for one in got] != [POLL] * 4:
            return settings, got
    return fault_of_kept()


def fault_of_kept():
    """What was heard stays as it was, whatever is read next."""
    import fio2070
    wire = fio2070.Wire()
    first = wire.read(model.line_of(POLL))
    wire.read(model.line_of(bytes(773)))
    return None if first == [('message', model.ADDRESS, model.CONTROL, POLL)] else first


def fault_of_bad_line():
    """Of frames that examples/line/relay.py damages, each in one of its ways, the library says what the model says: messages that
    were sent, in their order, and all but the damaged ones and those that such a frame was joined with."""
    import fio2070
    import relay
    dice = random.Random(6)
    damager, line, damages = relay.Damager(dice), dice.randbytes(100), collections.Counter()
    sent_all = [dice.randbytes(dice.choice((2, 8, 20, 500))) for _ in range(3000)]
    for message in sent_all:
        octets, damage = damager.sent(model.line_of(message)[1:-1], dice.random() < 0.2)
        line, damages = line + octets, damages + collections.Counter([damage])
    got = fio2070.Wire(*OWN).read(line)
    heard_all, rest = [one.message for one in got if one.kind == model.MESSAGE], iter(sent_all)
    missing, most = len(sent_all) - len(heard_all), sum(damages.values()) - damages[None] + damages['join']
    is_right = [tuple(one) for one in got] == [one[1:] for one in model.said(line)] and all(one in rest for one in heard_all)
    return None if is_right and len(damages) == 1 + len(relay.DAMAGES) and most // 2 < missing <= most else (is_right, missing, damages)


def main():
    check = Check(lines=(10_000, 30_000, 100_000))
    use_library(check, 'the wire')
    check.fault('the frame check', fault_of_checks, 2000)
    check.fault('frames are written', fault_of_written)
    check.fault('octets: frames are read', fault_of_round_trip, False)
    check.fault('bits: frames are read', fault_of_round_trip, True)
    check.fault("one's own frames", fault_of_own)
    for name, line in (
            ('two frames and one flag', '7e 148336 01 e05d 7e 148336 02 7b6f 7e'),
            ('a frame that is broken off after its check', '7e 148336 05 c41b 7d 7e'),
            ('a right check and no message', '7e ffffffff 7e ff 7e ffff 7e ffffff 7e 7e'),
            ('escapes of escapes', '7e 7d 7d 7e 7d 7d 7d 7e 7d 5d 7e 7d 7e'),
            ('octets before the first flag', '148336 05 c41b 7e 148336 05 c41b 7e'),
            ('no flag at the end', '7e 148336 05 c41b'),
            ('flags alone', '7e 7e 7e 7e')):
        check.fault(name, fault_of_line, bytes.fromhex(line))
    check.fault('frames that are too long', fault_of_line, too_long(model.line_of, bytes([model.FLAG]), b'\0'))
    check.fault('an octet that is lost', lambda: next(filter(None, map(fault_of_line, lost_lines())), None))
    for name, line in (
            ('bits: an idle line', model.bit_line_of(POLL) + '1' * 40 + model.bit_line_of(POLL)),
            ('bits: an aborted frame', model.bit_line_of(POLL)[:-14] + '1' * 9 + model.bit_line_of(POLL)),
            ('bits: flags that share a 0', model.bit_line_of(POLL) + model.bit_line_of(POLL)[1:]),
            ('bits: one flag between frames', model.bit_line_of(POLL) + model.bit_line_of(POLL)[8:]),
            ('bits: octets that are not whole', model.bit_line_of(POLL)[:-8] + '0' + model.bit_line_of(POLL)),
            ('bits: a line that begins with six ones', '1111110' + model.bit_line_of(POLL)[8:] + model.bit_line_of(POLL)),
            ('bits: a right check and no message', model.FLAG_BITS + model.bit_stuffed('1' * 32) + model.FLAG_BITS)):
        check.fault(name, fault_of_line, line, True)
    check.fault('bits: frames that are too long', fault_of_line, too_long(model.bit_line_of, model.FLAG_BITS, '0' * 8), True)
    for name, is_bits, frame, flips in NOT_FOUND:
        check.fault('damage that is not found: %s' % name, fault_of_struck, is_bits, frame, flips)
    dice = random.Random(5)
    check.fault('the bad line of examples/', fault_of_bad_line)
    check.fault('hostile lines', fault_of_lines, (hostile_line(dice) for _ in range(check.given.lines)))
    check.fault('hostile lines of bits', fault_of_lines, (hostile_bits(dice) for _ in range(check.given.lines)), True)
    check.end()


if __name__ == '__main__':
    main()
