"""Single faults in the frames of a log, for each whether the CPU sent it, and its octets."""

from support.content import lines_of


def transcript(frames):
    """The frames as a transcript."""
    return ''.join('%s %s\n' % ('<>'[sent], octets.hex()) for sent, octets in frames)


def entries_of(octets):
    """The entries of a block answer."""
    return [octets[at:at + 3] for at in range(3, len(octets) - 5, 3)]


def dropped(entries, at):
    del entries[at]


def doubled(entries, at):
    entries.insert(at, entries[at])


def turned(entries, at):
    entries[at] = bytes((entries[at][0] ^ 128,)) + entries[at][1:]


def swapped(entries, at):
    entries[at:at + 2] = reversed(entries[at:at + 2])


def earlier(entries, at):
    entries[at] = entries[at][:1] + ((int.from_bytes(entries[at][1:], 'big') - 2) % 65_536).to_bytes(2, 'big')


FAULTS = (dropped, doubled, turned, swapped)


def with_fault(frames, fault, draw):
    """The frames with this fault of an entry, and the index of its block; the entry is any, or to be swapped one with another
    stamp than the next one. None if there is no such entry."""
    blocks = [(place, entries_of(octets)) for place, (_, octets) in enumerate(frames) if octets[0] == 182]
    found = [(place, at) for place, entries in blocks for at in range(len(entries))
             if fault is not swapped or at + 1 < len(entries) and entries[at][1:] != entries[at + 1][1:]]
    if not found:
        return None
    place, at = draw.choice(found)
    octets = frames[place][1]
    entries = entries_of(octets)
    fault(entries, at)
    block = octets[:2] + bytes((len(entries) % 256,)) + b''.join(entries) + octets[-5:]
    return [*frames[:place], (False, block), *frames[place + 1:]], place


def with_bit(frames, draw):
    """The frames with a bit of an answer flipped, each type of answer as often; or as they are if there is none."""
    types = sorted({octets[0] for sent, octets in frames if not sent})
    if not types:
        return frames, 0
    kind = draw.choice(types)
    place = draw.choice([place for place, (_, octets) in enumerate(frames) if octets[0] == kind])
    octets = bytearray(frames[place][1])
    bit = draw.randrange(8, 8 * len(octets))
    octets[bit // 8] ^= 1 << bit % 8
    return [*frames[:place], (False, bytes(octets)), *frames[place + 1:]], place


def changed(text, fault, draw):
    """A transcript with this fault of an entry, if there is an entry for it."""
    frames = [(sent, octets) for _, sent, octets in lines_of(text)]
    return transcript((with_fault(frames, fault, draw) or (frames,))[0])
