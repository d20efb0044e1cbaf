"""Reads a pcapng file, by the blocks of its format."""

import struct


def frames_of(capture):
    """The octets and directions of a pcapng file."""
    place, found = 0, []
    while place < len(capture):
        kind, length = struct.unpack_from('<II', capture, place)
        if kind == 6:
            size = struct.unpack_from('<I', capture, place + 20)[0]
            data = capture[place + 28:place + 28 + size]
            flags = struct.unpack_from('<I', capture, place + 28 + size + -size % 4 + 4)[0]
            found.append(('>' if flags & 3 == 2 else '<', data[16:]))
        place += length
    return found
