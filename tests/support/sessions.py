"""Frames with times and directions, for the checks of `fiolog`."""

from support.frames import KNOWN, LENGTHS, random_frames

# A configuration, a poll that is repeated, blocks of one, three and 32 entries, and one message of most other types.
# Their octets are those of docs/PROTOCOL.md, or follow its tables.
SESSION = [bytes.fromhex(digits) for digits in [
    '33020c0503830000', 'b300', '36ff', '36ff', 'b6ff000200000064', '3600', 'b600018c03e700000003e8', '3601',
    'b601030c03f98d03fa0e03fb00000003fc', '3602', 'b60220' + '8c03fd0c03fe' * 16 + '0000000400', '34',
    'b4feffffffffffffff00000001', '3c', 'bc02', '3180', 'b100000000000400', '3a32', 'ba00',
    '3700000000000000010000000000000000', 'b70000000401', '3603', 'b603000000000402']]


def timed(frames, step=0.01, octet=0.0001):
    """The frames with times and directions: each begins one step after the one before has ended."""
    now, found = 0.0, []
    for octets in frames:
        found.append((round(now, 3), '<' if octets[0] >= 128 else '>', octets))
        now += step + octet * len(octets)
    return found


def spells(octets):
    """Whether octets spell a message, by the lengths of docs/PROTOCOL.md."""
    kind, length = next(iter(octets), None), len(octets)
    if kind not in KNOWN or length > 773:
        return False
    if kind == 51:
        return length > 1 and length == 2 + 3 * octets[1]
    if kind == 182:
        return length > 2 and length == 8 + 3 * octets[2]
    return kind not in LENGTHS or length == 1 + LENGTHS[kind]


def random_session(seed, count):
    """Random frames that spell messages, and are long enough to be recognised as such in any log."""
    return [octets for octets in random_frames(seed, count) if len(octets) > 1 and spells(octets)]
