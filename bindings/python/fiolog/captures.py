"""Files of captured packets, pcap and pcapng, as the lines of a log: a line for each packet, with its number as Wireshark has it.
The line has the time, for a UDP datagram a word for its two ends and its octets, for a packet of USB (usb.py) a word for its adapter and
the octets that this sent or heard, and else what the packet is. tools/page/src/captures.js does the same. And frames as a pcapng file."""

import struct

from . import usb

MAGICS = {0xa1b2c3d4: 10 ** 6, 0xa1b23c4d: 10 ** 9}      # how many steps a second has
SECTION, ORDER, INTERFACE, SIMPLE, PACKET = 0x0a0d0d0a, 0x1a2b3c4d, 1, 3, 6
# How such a file begins.
BEGINNINGS = (SECTION.to_bytes(4, 'big'), *(magic.to_bytes(4, order) for magic in MAGICS for order in ('big', 'little')))
RESOLUTION, OFFSET, FLAGS = 9, 14, 2                     # options of interfaces and packets
UPPER_PDU, DISSECTOR_NAME, DISSECTOR = 252, 12, b'fio2070\0'
_TAGS = struct.pack('>HH', DISSECTOR_NAME, len(DISSECTOR)) + DISSECTOR + struct.pack('>HH', 0, 0)
INBOUND, OUTBOUND = 1, 2
IPV4, IPV6, VLANS = 0x0800, 0x86dd, (0x8100, 0x88a8, 0x9100)
UDP, FRAGMENT, FURTHER_HEADERS = 17, 44, (0, 43, 44, 60)
LOOPBACK_FAMILIES = 2, 10, 24, 28, 30
# Pairs of ends that have a word of their own; after so many the words begin anew.
LETTERS = 'ghijklmnopqrstuvwxyz'                         # no hexadecimal digits
MOST_OF_PACKET = 1 << 24                                 # with more octets the file is broken
MOST_PAIRS = len(LETTERS) ** 2
NOT_UDP, NO_DATA, CUT, FRAGMENTED, WRONG = 'not UDP', 'no data', 'octets lost: cut off', 'octets lost: part of a packet', 'octets lost: wrong length'
ENDS_EARLY, BROKEN = 'octets lost: the file ends early', 'octets lost: the file is broken from here on'


class _Cut(Exception):
    """The octets of a packet end before what is read of it."""


def _number(data, place, count):
    """A number of so many octets, the highest first."""
    if place + count > len(data):
        raise _Cut
    return int.from_bytes(data[place:place + count], 'big')


def _of_ethernet(data, place):
    """What follows a type of Ethernet: the IP packet, or None for another one."""
    kind, place = _number(data, place, 2), place + 2
    while kind in VLANS:
        kind, place = _number(data, place + 2, 2), place + 4
    return data[place:] if kind in (IPV4, IPV6) else None


def _of_loopback(data):
    _number(data, 0, 4)
    return data[4:] if sum(data[:4]) in LOOPBACK_FAMILIES else None


# The IP packet in a packet of a link type.
LINKS = {0: _of_loopback, 1: lambda data: _of_ethernet(data, 12), 101: bytes, 108: _of_loopback, 113: lambda data: _of_ethernet(data, 14),
         228: bytes, 229: bytes, 276: lambda data: data[20:] if _number(data, 0, 2) in (IPV4, IPV6) else None}


def _datagram(data):
    """The addresses of an IP packet and its UDP datagram, or None and why it has none."""
    version = _number(data, 0, 1) >> 4
    if version == 4:
        start, length, part, protocol = 4 * (data[0] & 15), _number(data, 2, 2), _number(data, 6, 2) & 0x3fff, _number(data, 9, 1)
        ends = data[12:16], data[16:20]
    elif version == 6:
        start, length, part, protocol = 40, 40 + _number(data, 4, 2), 0, _number(data, 6, 1)
        ends = data[8:24], data[24:40]
        while protocol in FURTHER_HEADERS and not part:
            part = _number(data, start + 2, 2) & 0xfff9 if protocol == FRAGMENT else 0
            protocol, start = _number(data, start, 1), start + 8 + 8 * (protocol != FRAGMENT and _number(data, start + 1, 1))
    else:
        return None, NOT_UDP
    if part:
        return None, FRAGMENTED if protocol == UDP or protocol in FURTHER_HEADERS else NOT_UDP
    return (ends, data[start:length or None]) if protocol == UDP else (None, NOT_UDP)


class Lines:
    """Makes lines of the octets of a capture file, in pieces of any length."""

    def __init__(self):
        self.held, self.order, self.steps, self.interfaces, self.pairs = b'', '', 0, [], {}
        self.adapters = usb.Adapters()
        self.is_broken = False

    def feed(self, octets):
        """The lines of the packets that end in these octets."""
        if self.is_broken:
            return b''
        self.held += octets
        lines, place = [], 0
        while not self.is_broken:
            length, found = (self._begin if not self.order else self._record if self.steps else self._block)(place)
            if not length:
                break
            place += length
            lines += found
        self.held = b'' if self.is_broken else self.held[place:]
        return ''.join(line + '\n' for line in lines).encode()

    def end(self):
        """The line of a packet that is not whole."""
        return (ENDS_EARLY + '\n').encode() if self.held else b''

    def _begin(self, place):
        """Reads the order of the octets and, for pcap, its header, of which it returns the length."""
        if len(self.held) < 24:
            return 0, []
        for self.order in '<>':
            magic, *_, snap, link = struct.unpack_from(self.order + '6I', self.held)
            if magic in MAGICS:
                self.steps = MAGICS[magic]
                self.interfaces = [(link & 0xffff, self.steps, 0, snap)]
                return 24, []
            if magic == SECTION:
                return self._block(place)
        return self._break()

    def _record(self, place):
        """The length of a packet of pcap, and its line; 0 if it has not come whole."""
        if len(self.held) < place + 16:
            return 0, []
        seconds, part, size, whole = struct.unpack_from(self.order + 'IIII', self.held, place)
        if size > MOST_OF_PACKET:
            return self._break()
        if len(self.held) < place + 16 + size:
            return 0, []
        data = self.held[place + 16:place + 16 + size]
        return 16 + size, [self._line(0, seconds * self.steps + part, data, whole > size)]

    def _block(self, place):
        """The length of a block of pcapng, and its line if it is a packet; 0 if it has not come whole."""
        if len(self.held) < place + 12:
            return 0, []
        kind = struct.unpack_from(self.order + 'I', self.held, place)[0]
        if kind == SECTION:
            self.order, self.interfaces = '<' if self.held[place + 8] == ORDER & 255 else '>', []
        length = struct.unpack_from(self.order + 'I', self.held, place + 4)[0]
        if length < 12 or length % 4 or length > MOST_OF_PACKET:
            return self._break()
        if len(self.held) < place + length:
            return 0, []
        body = self.held[place + 8:place + length - 4]
        try:
            return length, self._of_block(kind, body)
        except (struct.error, IndexError):
            return self._break()

    def _break(self):
        self.is_broken = True
        return 1, [BROKEN]

    def _of_block(self, kind, body):
        if kind == INTERFACE:
            link, _, snap = struct.unpack_from(self.order + 'HHI', body)
            found = dict(self._options(body, 8))
            step, shift = found.get(RESOLUTION, b'\6')[0], struct.unpack(self.order + 'q', found.get(OFFSET, bytes(8)))[0]
            self.interfaces.append((link, 2 ** (step & 127) if step & 128 else 10 ** step, shift, snap))
        elif kind == PACKET:
            index, high, low, size, whole = struct.unpack_from(self.order + 'IIIII', body)
            flags = struct.unpack(self.order + 'I', dict(self._options(body, 20 + size + -size % 4)).get(FLAGS, bytes(4)))[0]
            if size > len(body) - 20:
                raise IndexError
            return [self._line(index, high << 32 | low, body[20:20 + size], whole > size, ('', '< ', '> ', '')[flags & 3])]
        elif kind == SIMPLE:
            whole, snap = struct.unpack_from(self.order + 'I', body)[0], self.interfaces[0][3] or len(body)
            size = min(whole, snap, len(body) - 4)
            return [self._line(0, None, body[4:4 + size], whole > size)]
        return []

    def _options(self, body, place):
        """The options of a block, each with its number."""
        while place + 4 <= len(body):
            number, length = struct.unpack_from(self.order + 'HH', body, place)
            if number == 0:
                return
            yield number, body[place + 4:place + 4 + length]
            place += 4 + length + -length % 4

    def _line(self, index, time, data, is_cut, way=''):
        """The line of a packet. `way` is what a pcapng file says of its direction."""
        link, steps, shift, _ = self.interfaces[index]
        try:
            text = self._upper(data, way) if link == UPPER_PDU else self._usb(link, data) if link in usb.LINKS else self._udp(link, data)
        except (_Cut, struct.error):
            text = CUT if is_cut else WRONG
        return text if time is None else '%s %s' % (_clock(time, steps, shift), text)

    def _udp(self, link, data):
        packet = LINKS[link](data) if link in LINKS else None
        ends, datagram = (None, NOT_UDP) if packet is None else _datagram(packet)
        if ends is None:
            return datagram
        ports, length = (_number(datagram, 0, 2), _number(datagram, 2, 2)), _number(datagram, 4, 2)
        if length < 8 or length > len(datagram):
            raise _Cut
        return '%s %s' % (self._word('udp', frozenset(zip(ends, ports))), datagram[8:length].hex())

    def _usb(self, link, data):
        adapter, octets = self.adapters.octets(link, self.order, data)
        return NO_DATA if octets is None else '%s %s' % (self._word('usb', adapter), octets.hex())

    def _word(self, kind, pair):
        """The word for two ends, by their addresses and ports, or for an adapter, by its bus and its number there."""
        if pair not in self.pairs and len(self.pairs) == MOST_PAIRS:
            self.pairs = {}
        index = self.pairs.setdefault(pair, len(self.pairs))
        return kind + LETTERS[index // len(LETTERS)] + LETTERS[index % len(LETTERS)]

    def _upper(self, data, way):
        """The text of a message that `fiolog convert` wrote."""
        name, place, tag = b'', 0, _number(data, 0, 2)
        while tag:
            length = _number(data, place + 2, 2)
            name = data[place + 4:place + 4 + length] if tag == DISSECTOR_NAME else name
            place += 4 + length
            tag = _number(data, place, 2)
        _number(data, place + 2, 2)
        return way + data[place + 4:].hex() if name.rstrip(b'\0') == b'fio2070' else NOT_UDP


def _clock(time, steps, shift):
    """A time as seconds with nine digits below the point: an odd count of digits is no octets."""
    return '%d.%09d' % divmod(max(time * 10 ** 9 // steps + shift * 10 ** 9, 0), 10 ** 9)


class TextLines(Lines):
    """Makes lines of the text of usbmon, one of each."""

    def feed(self, octets):
        """The lines of those that end in these octets."""
        whole = (self.held + octets).splitlines(keepends=True)
        self.held = whole.pop() if whole and not whole[-1].endswith(b'\n') else b''
        return ''.join(map(self._of_text, whole)).encode()

    def end(self):
        """The line that has no end."""
        return self._of_text(self.held).encode() if self.held else b''

    def _of_text(self, line):
        found = usb.TEXT.fullmatch(line)
        if not found:
            return (CUT if line.strip() else '') + '\n'
        try:
            adapter, octets = self.adapters.octets_of_text(found)
            text = NO_DATA if octets is None else '%s %s' % (self._word('usb', adapter), octets.hex())
        except (struct.error, ValueError):
            text = CUT
        return '%s %s\n' % (_clock(int(found[1]), 10 ** 6, 0), text)


def is_capture(first):
    """Whether a file that begins with these octets is a capture of packets."""
    return first.startswith(BEGINNINGS) or usb.TEXT.match(first.partition(b'\n')[0]) is not None


def lines_of(chunks):
    """The lines of a capture file that comes in pieces."""
    chunks = iter(chunks)
    first = next(chunks, b'')
    # A text of usbmon begins with a hexadecimal digit, and no other one does.
    lines = TextLines() if first[:1] in b'0123456789abcdef' and first else Lines()
    yield lines.feed(first)
    for chunk in chunks:
        yield lines.feed(chunk)
    yield lines.end()


def _written_block(kind, body):
    length = 12 + len(body)
    return struct.pack('<II', kind, length) + body + struct.pack('<I', length)


class Writer:
    """Writes frames as a pcapng file, each as it comes: upper PDUs that name their dissector, fio2070.lua. A frame without a time comes
    a millisecond after the one before."""

    STEP = 0.001

    def __init__(self, out):
        self.out, self.last = out, -self.STEP
        out.write(_written_block(SECTION, struct.pack('<IHHq', ORDER, 1, 0, -1)))
        out.write(_written_block(INTERFACE, struct.pack('<HHI', UPPER_PDU, 0, 0)))

    def add(self, time, direction, octets):
        """A frame: its time in seconds, `>` or `<`, and its octets."""
        self.last = self.last + self.STEP if time is None else time
        data = _TAGS + octets
        stamp = max(round(self.last * 10 ** 6), 0)
        options = struct.pack('<HHIHH', FLAGS, 4, OUTBOUND if direction == '>' else INBOUND, 0, 0)
        self.out.write(_written_block(PACKET, struct.pack('<IIIII', 0, stamp >> 32, stamp & 0xffffffff, len(data), len(data))
                              + data + bytes(-len(data) % 4) + options))
