"""The independent model of the line: what the line says, by its definition, of octets with octet stuffing and of bits with
bit stuffing; and what is sent. A line is split at its flags first; nothing here reads it step by step.

A *part* is what is between two flags next to each other. An empty part says nothing. A part is a frame if it is not open (it
ends with no escape) and its octets without stuffing are 5 to 777, the last two the frame check of the others. Each other part
is damage. What comes before the first flag and after the last says nothing."""

import binascii
from typing import NamedTuple

ADDRESS, CONTROL, ANY = 0x14, 0x83, 256
FLAG, ESCAPE, TURNED = 0x7e, 0x7d, 0x20
FLAG_BITS = '01111110'
# Each octet with its bits in the other order.
REVERSED = bytes(int(format(octet, '08b')[::-1], 2) for octet in range(256))
SHORTEST, LONGEST = 5, 777
# In a line of octets, in the place of an octet: an octet was lost there, or came with a wrong parity or stop bit.
LOST = None

MESSAGE, OTHER, DAMAGED = 'message', 'other', 'damaged'


class Said(NamedTuple):
    """What a part says. `place` is the index of the octet, or of the bit, that ends it: the last of its second flag."""
    place: int
    kind: str
    address: int = None
    control: int = None
    message: bytes = b''


# What is sent ----------------------------------------------------------------------------------------------------------

def frame_check(octets):
    """FCS-16, low octet first, by the CRC of the standard library, whose bits run the other way."""
    check = binascii.crc_hqx(bytes(octets).translate(REVERSED), 0xffff) ^ 0xffff
    return check.to_bytes(2, 'big').translate(REVERSED)


def with_check(octets):
    """Octets, and their frame check, low octet first."""
    return bytes(octets) + frame_check(octets)


def stuffed(octets):
    """Each flag and each escape as an escape and the octet with bit 5 inverted."""
    return b''.join(bytes((ESCAPE, octet ^ TURNED)) if octet in (FLAG, ESCAPE) else bytes((octet,)) for octet in octets)


def line_of(message, address=ADDRESS, control=CONTROL):
    """A frame on a line of octets, with its flags."""
    return bytes((FLAG,)) + stuffed(with_check(bytes((address, control)) + bytes(message))) + bytes((FLAG,))


def bits_of(octets):
    """The bits of octets, lowest bit first, as a text of 0 and 1."""
    return ''.join(format(octet, '08b')[::-1] for octet in octets)


def bit_stuffed(bits):
    """Bits with a 0 after each five ones in a row."""
    return bits.replace('11111', '111110')


def bit_line_of(message, address=ADDRESS, control=CONTROL):
    """A frame on a line of bits, with its flags."""
    return FLAG_BITS + bit_stuffed(bits_of(with_check(bytes((address, control)) + bytes(message)))) + FLAG_BITS


# What a line says ------------------------------------------------------------------------------------------------------

def judged(octets, place, address, control):
    """What the octets of a part say, without stuffing; `octets` is None if they are no whole octets, or lost ones."""
    if octets is None or not SHORTEST <= len(octets) <= LONGEST or frame_check(octets[:-2]) != octets[-2:]:
        return Said(place, DAMAGED)
    is_own = (address > 255 or octets[0] == address) and (control > 255 or octets[1] == control)
    return Said(place, MESSAGE if is_own else OTHER, octets[0], octets[1], octets[2:-2])


def unstuffed(part):
    """A part's octets without stuffing; None if it is open, or an octet of it was lost."""
    if LOST in part:
        return None
    octets, rest = bytearray(), list(part)
    while rest:
        octet = rest.pop(0)
        if octet == ESCAPE and not rest:
            return None
        octets.append(rest.pop(0) ^ TURNED if octet == ESCAPE else octet)
    return bytes(octets)


def said(line, address=ADDRESS, control=CONTROL):
    """What a line of octets says, in order; `line` has octets, and `LOST` in the place of one that was lost."""
    line = list(line)
    flags = [place for place, octet in enumerate(line) if octet == FLAG]
    return [judged(unstuffed(line[first + 1:last]), last, address, control)
            for first, last in zip(flags, flags[1:]) if last > first + 1]


def destuffed(part):
    """A part's octets, of its bits without the 0 after each five ones; None if they are no whole octets, or broken off with
    seven ones in a row."""
    bits = part.replace('111110', '11111')
    if '1111111' in part or len(bits) % 8:
        return None
    return bytes(int(bits[place:place + 8][::-1], 2) for place in range(0, len(bits), 8))


def said_by_bits(line, address=ADDRESS, control=CONTROL):
    """What a line of bits says, in order; `line` is a text of 0 and 1. Two flags may share a 0. A part that begins with seven
    ones is an idle line, which says nothing."""
    flags = [place for place in range(len(line)) if line.startswith(FLAG_BITS, place)]
    parts = [(line[first + 8:last], last + 7) for first, last in zip(flags, flags[1:])]
    return [judged(destuffed(part), place, address, control)
            for part, place in parts if part and not part.startswith('1111111')]
