"""Files of captured packets, made octet by octet by the formats' own descriptions, each packet with the octets of the message in it or
with what else is to be said of it."""

import itertools
import random
import struct

CPU4, MODULE4 = bytes((10, 0, 0, 1)), bytes((10, 0, 0, 2))
CPU6, MODULE6 = (bytes.fromhex('20010db8') + bytes(11) + bytes((last,)) for last in (1, 2))
NOT_UDP, NO_DATA, CUT, PART, WRONG = 'not UDP', 'no data', 'octets lost: cut off', 'octets lost: part of a packet', 'octets lost: wrong length'
EARLY, BROKEN = 'octets lost: the file ends early', 'octets lost: the file is broken from here on'
POLL, BLOCK = bytes.fromhex('3600'), bytes.fromhex('b600010c00010000000001')


def udp(octets, ports=(40000, 2070), length=None):
    return struct.pack('>HHHH', *ports, 8 + len(octets) if length is None else length, 0) + octets


def ipv4(body, ends=(CPU4, MODULE4), protocol=17, part=0, options=b'', length=None):
    head = 20 + len(options)
    return struct.pack('>BBHHHBBH', 0x40 + head // 4, 0, head + len(body) if length is None else length, 7, part, 64, protocol, 0) + b''.join(ends) + options + body


def ipv6(body, ends=(CPU6, MODULE6), protocol=17, headers=b''):
    return struct.pack('>IHBB', 6 << 28, len(headers) + len(body), protocol, 64) + b''.join(ends) + headers + body


def ethernet(packet, kind=0x0800, tags=()):
    return bytes(12) + b''.join(struct.pack('>HH', tag, 5) for tag in tags) + struct.pack('>H', kind) + packet


# The link types, and an IP packet of a version in a packet of each.
WAYS = {
    'Ethernet': (1, lambda packet, version: ethernet(packet, {4: 0x0800, 6: 0x86dd}[version])),
    'a VLAN': (1, lambda packet, version: ethernet(packet, {4: 0x0800, 6: 0x86dd}[version], [0x8100])),
    'a VLAN in a VLAN': (1, lambda packet, version: ethernet(packet, {4: 0x0800, 6: 0x86dd}[version], [0x88a8, 0x8100])),
    'a short frame with padding': (1, lambda packet, version: ethernet(packet, {4: 0x0800, 6: 0x86dd}[version]) + bytes(18)),
    'Linux cooked': (113, lambda packet, version: struct.pack('>HHH8sH', 0, 1, 6, bytes(8), {4: 0x0800, 6: 0x86dd}[version]) + packet),
    'Linux cooked 2': (276, lambda packet, version: struct.pack('>HHIHBB8s', {4: 0x0800, 6: 0x86dd}[version], 0, 3, 1, 0, 6, bytes(8)) + packet),
    'raw IP': (101, lambda packet, version: packet),
    'loopback, low first': (0, lambda packet, version: struct.pack('<I', {4: 2, 6: 30}[version]) + packet),
    'loopback, high first': (0, lambda packet, version: struct.pack('>I', {4: 2, 6: 24}[version]) + packet),
    'loopback of OpenBSD': (108, lambda packet, version: struct.pack('>I', {4: 2, 6: 24}[version]) + packet),
}
IN_IP = {4: ipv4, 6: ipv6}
# In an Ethernet frame: what is there, and what is to be said of it.
OTHERS = [
    ('TCP', ethernet(ipv4(bytes(20), protocol=6)), NOT_UDP), ('ARP', ethernet(bytes(28), 0x0806), NOT_UDP), ('an unknown version', ethernet(b'\x55' + bytes(30)), NOT_UDP),
    ('the first part of a datagram', ethernet(ipv4(udp(BLOCK)[:8], part=0x2000)), PART), ('the last part of a datagram', ethernet(ipv4(BLOCK, part=1)), PART),
    ('a part of TCP', ethernet(ipv4(bytes(20), protocol=6, part=0x2000)), NOT_UDP),
    ('do not fragment', ethernet(ipv4(udp(POLL), part=0x4000)), POLL), ('options of IPv4', ethernet(ipv4(udp(POLL), options=bytes((1, 1, 1, 0)))), POLL),
    ('a length of 0, of an adapter that cuts itself', ethernet(ipv4(udp(POLL), length=0)), POLL),
    ('headers of IPv6', ethernet(ipv6(udp(POLL), protocol=0, headers=struct.pack('>BB6xBB14x', 60, 0, 17, 1)), 0x86dd), 'udpgh 3600'),
    ('a whole packet with the header of parts', ethernet(ipv6(udp(POLL), protocol=44, headers=struct.pack('>BBHI', 17, 0, 0, 1)), 0x86dd), 'udpgh 3600'),
    ('a part in IPv6', ethernet(ipv6(udp(BLOCK)[:8], protocol=44, headers=struct.pack('>BBHI', 17, 0, 1, 1)), 0x86dd), PART),
    ('a later part in IPv6', ethernet(ipv6(BLOCK, protocol=44, headers=struct.pack('>BBHI', 60, 0, 8, 1)), 0x86dd), PART),
    ('ICMP in IPv6', ethernet(ipv6(bytes(8), protocol=58), 0x86dd), NOT_UDP),
    ('a datagram longer than its packet', ethernet(ipv4(udp(POLL, length=40))), WRONG), ('a datagram shorter than its head', ethernet(ipv4(udp(POLL, length=7))), WRONG),
    ('a datagram without octets', ethernet(ipv4(udp(b''))), b''), ('a frame without a type', bytes(13), WRONG),
]


def pcap(packets, link, order='<', is_nano=False, snap=262_144):
    """A pcap file of packets, a millisecond apart."""
    file = struct.pack(order + 'IHHiIII', 0xa1b23c4d if is_nano else 0xa1b2c3d4, 2, 4, 0, 0, snap, link)
    for place, packet in enumerate(packets):
        file += struct.pack(order + 'IIII', 1_700_000_000 + place // 1000, place % 1000 * (10 ** 6 if is_nano else 1000), min(len(packet), snap), len(packet)) + packet[:snap]
    return file


def block(order, kind, body):
    body += bytes(-len(body) % 4)
    return struct.pack(order + 'II', kind, 12 + len(body)) + body + struct.pack(order + 'I', 12 + len(body))


def option(order, number, value):
    return struct.pack(order + 'HH', number, len(value)) + value + bytes(-len(value) % 4)


def section(order):
    return block(order, 0x0a0d0d0a, struct.pack(order + 'IHHq', 0x1a2b3c4d, 1, 0, -1))


def interface(order, link, resolution=None, shift=None, snap=0):
    options = (option(order, 9, bytes((resolution,))) if resolution is not None else b'') + (option(order, 14, struct.pack(order + 'q', shift)) if shift else b'')
    return block(order, 1, struct.pack(order + 'HHI', link, 0, snap) + (options + bytes(4) if options else b''))


def enhanced(order, index, time, packet, whole=None, flags=None):
    body = struct.pack(order + 'IIIII', index, time >> 32, time & 0xffffffff, len(packet), len(packet) if whole is None else whole) + packet + bytes(-len(packet) % 4)
    return block(order, 6, body + (option(order, 2, struct.pack(order + 'I', flags)) + bytes(4) if flags is not None else b''))


def simple(order, packet, snap=None):
    return block(order, 3, struct.pack(order + 'I', len(packet)) + packet[:snap])


# Packets of USB on bus 2: the transfer, the endpoint, the device, whether it is the end of the transfer, and its data; and the line.
CONTROL, INTERRUPT, BULK, TO_HOST = 2, 1, 3, 0x80
SERIAL = [(BULK, 2, 5, False, POLL, 'usbgg 3600'), (BULK, 2, 5, True, b'', NO_DATA), (BULK, 1 | TO_HOST, 5, False, b'', NO_DATA), (BULK, 1 | TO_HOST, 5, True, BLOCK, 'usbgg ' + BLOCK.hex()),
          (CONTROL, TO_HOST, 5, True, bytes(18), NO_DATA), (INTERRUPT, 3 | TO_HOST, 5, True, bytes.fromhex('a1200000000002000300'), NO_DATA),
          (BULK, 2, 6, False, POLL, 'usbgh 3600')]
# What adapters of FTDI hear: of device 5 a state, half of a message, the rest below another state, and 70 octets in two packets; of device 6,
# which is none, an answer 177 that looks like a state; and of device 7, which is one, the same octets before a message.
STATE, LONG = b'\x01\x60', bytes(range(100, 162))
FTDI = [(BULK, 1 | TO_HOST, 5, True, STATE, NO_DATA), (BULK, 1 | TO_HOST, 5, True, STATE + BLOCK[:4], 'usbgg ' + BLOCK[:4].hex()), (BULK, 1 | TO_HOST, 5, True, b'\x31\x00' + BLOCK[4:], 'usbgg ' + BLOCK[4:].hex()),
        (BULK, 1 | TO_HOST, 5, True, STATE + LONG + STATE + POLL, 'usbgg ' + (LONG + POLL).hex()), (BULK, 1 | TO_HOST, 5, True, b'\xb1\x60', NO_DATA), (BULK, 2, 5, False, STATE, 'usbgg 0160'),
        (BULK, 1 | TO_HOST, 6, True, b'\xb1\x00', 'usbgh b100'), (BULK, 1 | TO_HOST, 6, True, POLL, 'usbgh 3600'), (BULK, 1 | TO_HOST, 6, True, STATE, 'usbgh 0160'),
        (BULK, 1 | TO_HOST, 7, True, b'\xb1\x60' + BLOCK, 'usbgi ' + BLOCK.hex()), (BULK, 1 | TO_HOST, 7, True, b'\xb1\x60', NO_DATA)]


def usbmon(order, size, transfer, endpoint, device, is_end, data, cut=0):
    """A packet of Linux, with a head of 48 or 64 octets; of its data so many octets are not there."""
    kept = len(data) - cut
    return struct.pack(order + 'QBBBBHBBqiiII8x', 7, ord('SC'[is_end]), transfer, endpoint, device, 2, ord('-'), 0 if data else ord('<>'[endpoint < TO_HOST]), 0, 0, 0 if is_end else -115,
                       len(data), kept) + bytes(size - 48) + data[:kept]


def of_text(transfer, endpoint, device, is_end, data):
    """A packet as a line of the text of usbmon, which has 32 octets of the data at most."""
    kind = 'ZICB'[transfer] + 'oi'[endpoint >= TO_HOST]
    words = [data[place:place + 4].hex() for place in range(0, min(len(data), 32), 4)]
    return 'ffff88003f0a1180 %d %s %s:2:%03d:%d %d %d %s' % (7_000_000, 'SC'[is_end], kind, device, endpoint & 15, 0 if is_end else -115, len(data), ' '.join(['=', *words]) if data else '<>'[endpoint < TO_HOST])


def usbpcap(transfer, endpoint, device, is_end, data):
    """A packet of Windows."""
    return struct.pack('<HQIHBHHBBI', 27, 7, 0, 9, is_end, 2, device, endpoint, transfer, len(data)) + data


def of_usb():
    """Captures of serial adapters."""
    for name, rows in (('USB', SERIAL), ('USB by FTDI', FTDI)):
        lines = ['1700000000.%03d000000 %s' % (place, row[-1]) for place, row in enumerate(rows)]
        for order, (size, link) in itertools.product('<>', ((48, 189), (64, 220))):
            yield '%s, Linux, a head of %d, %s' % (name, size, order), pcap([usbmon(order, size, *row[:-1]) for row in rows], link, order), lines
        yield name + ', Windows', pcap([usbpcap(*row[:-1]) for row in rows], 249), lines
        yield (name + ', Linux, pcapng', section('<') + interface('<', 220) + b''.join(enhanced('<', 0, 1_700_000_000_000_000 + 1000 * place, usbmon('<', 64, *row[:-1]))
                                                                                      for place, row in enumerate(rows)), lines)
        texts = [of_text(*row[:-1]) for row in rows]
        yield name + ', text', ''.join(text + '\n' for text in texts).encode(), ['7.000000000 ' + (row[-1] if len(row[-2]) <= 32 or not row[-1].startswith('usb') else CUT) for row in rows]
    for name, text, line in (('of a text of USB', 'ffff88003f0a1180 7000000 S Bo:2:005:2 -115 2 = 36', '7.000000000 ' + CUT), ('within a line of USB', 'ffff88003f0a1180 7000', CUT),
                             ('in a digit of USB', 'ffff88003f0a1180 7000000 S Bo:2:005:2 -115 2 = 360', '7.000000000 ' + CUT), ('of a blank line', '', ''),
                             ('of none, as older systems write it', 'd74ff9a0 2640288196 S Bo:005:02 -115 2 = 3600', '2640.288196000 usbgg 3600')):
        yield 'cut ' + name, ('ffff88003f0a1180 7000000 C Bo:2:005:2 0 2 >\n%s\n' % text).encode(), ['7.000000000 ' + NO_DATA, line]
    whole = usbmon('<', 64, *SERIAL[3][:-1])
    for name, packet, snap in (('in a head of USB', whole, 63), ('in data of USB', whole, 70)):
        yield 'cut ' + name, pcap([packet], 220, snap=snap), ['1700000000.000000000 ' + CUT]
    yield 'data of USB that Linux cut', pcap([usbmon('<', 64, *SERIAL[3][:-1], cut=3)], 220), ['1700000000.000000000 ' + WRONG]


def said(packet):
    """What is to be said of a packet, after its time: octets in a datagram of the first two ends, or a text."""
    return 'udpgg ' + packet.hex() if isinstance(packet, bytes) else packet


def files():
    """Captures, each with its name and the lines that are to be read of it."""
    for (name, (link, around)), version in itertools.product(WAYS.items(), (4, 6)):
        for order, is_nano in itertools.product('<>', (False, True)):
            ends = {4: (CPU4, MODULE4), 6: (CPU6, MODULE6)}[version]
            packets = [around(IN_IP[version](udp(POLL), ends), version), around(IN_IP[version](udp(BLOCK, (2070, 40000)), ends[::-1]), version)]
            yield ('%s, IPv%d, %s%s' % (name, version, order, ' ns' * is_nano), pcap(packets, link, order, is_nano),
                   ['1700000000.%03d000000 udpgg %s' % (place, octets.hex()) for place, octets in enumerate((POLL, BLOCK))])
    for order in '<>':
        times = [1_700_000_000_000_000 + place * 1000 for place in range(len(OTHERS))]
        lines = ['1700000000.%03d000000 %s' % (place, said(what)) for place, (_, _, what) in enumerate(OTHERS)]
        packets = [packet for _, packet, _ in OTHERS]
        yield 'what is no UDP, %s' % order, pcap(packets, 1, order), lines
        yield ('what is no UDP in pcapng, %s' % order,
               section(order) + interface(order, 1) + b''.join(enhanced(order, 0, *pair) for pair in zip(times, packets)), lines)
        yield from of_pcapng(order)
    for snap in (10, 14, 33, 34, 41, 42, 43):
        yield 'cut after %d' % snap, pcap([ethernet(ipv4(udp(POLL)))], 1, snap=snap), ['1700000000.000000000 ' + CUT]
    yield 'cut in the padding', pcap([ethernet(ipv4(udp(POLL))) + bytes(16)], 1, snap=46), ['1700000000.000000000 udpgg 3600']
    yield 'another link type', pcap([bytes(40)] * 2, 105), ['1700000000.000000000 not UDP', '1700000000.001000000 not UDP']
    whole = pcap([ethernet(ipv4(udp(POLL)))] * 2, 1)
    yield 'cut in the head of the file', whole[:20], [EARLY]
    yield 'cut in a head', whole[:-50], ['1700000000.000000000 udpgg 3600', EARLY]
    yield 'cut in a packet', whole[:-5], ['1700000000.000000000 udpgg 3600', EARLY]
    yield 'a packet of more octets than any', whole + struct.pack('<IIII', 0, 0, 1 << 30, 1 << 30) + bytes(9), ['1700000000.000000000 udpgg 3600', '1700000000.001000000 udpgg 3600', BROKEN]
    yield from of_usb()
    ends = [(40000, 2070), (40001, 2070), (2070, 40000), (2070, 40001)]
    yield ('two pairs of ends', pcap([ipv4(udp(POLL, ports), (CPU4, MODULE4) if place < 2 else (MODULE4, CPU4)) for place, ports in enumerate(ends)], 101),
           ['1700000000.%03d000000 %s 3600' % (place, word) for place, word in enumerate(('udpgg', 'udpgh', 'udpgg', 'udpgh'))])


def of_pcapng(order):
    """What pcapng alone has."""
    packet, start = ethernet(ipv4(udp(POLL))), section(order)
    for resolution, steps in ((None, 10 ** 6), (3, 1000), (9, 10 ** 9), (0x8a, 1024), (0xa0, 1 << 32)):
        yield ('steps %s, %s' % (resolution, order), start + interface(order, 1, resolution) + enhanced(order, 0, 25 * steps // 2, packet), ['12.500000000 udpgg 3600'])
    yield 'shifted times, ' + order, start + interface(order, 1, 6, 1_700_000_000) + enhanced(order, 0, 1, packet), ['1700000000.000001000 udpgg 3600']
    yield 'a packet without a time, ' + order, start + interface(order, 1) + simple(order, packet), ['udpgg 3600']
    yield 'a cut packet without a time, ' + order, start + interface(order, 1, snap=42) + simple(order, packet, 42), [CUT]
    yield 'a cut packet, ' + order, start + interface(order, 1) + enhanced(order, 0, 0, packet[:43], len(packet)), ['0.000000000 ' + CUT]
    yield ('two interfaces, a block that is not read, and a section of the other order, ' + order,
           start + interface(order, 101) + interface(order, 1) + block(order, 5, bytes(12)) + enhanced(order, 1, 0, packet) + enhanced(order, 0, 1, packet[14:])
           + section('<>'[order == '<']) + interface('<>'[order == '<'], 1) + enhanced('<>'[order == '<'], 0, 2, packet),
           ['0.00000%d000 udpgg 3600' % place for place in range(3)])
    upper = struct.pack('>HH8sHH', 12, 8, b'fio2070\0', 0, 0)
    yield ('messages that fiolog wrote, ' + order, start + interface(order, 252)
           + b''.join(enhanced(order, 0, place, upper + octets, flags=flags) for place, (octets, flags) in enumerate(((POLL, 2), (BLOCK, 1), (POLL, None))))
           + enhanced(order, 0, 3, upper.replace(b'fio2070', b'another') + POLL),
           ['0.000000000 > 3600', '0.000001000 < ' + BLOCK.hex(), '0.000002000 3600', '0.000003000 not UDP'])
    yield 'an interface that is missing, ' + order, start + interface(order, 1) + enhanced(order, 1, 0, packet), [BROKEN]
    yield 'a block with a wrong length, ' + order, start + interface(order, 1) + struct.pack(order + 'II', 6, 13) + bytes(40), [BROKEN]


def damaged(count, seed=1):
    """Captures with octets that are changed, put in or taken out at random."""
    chance, whole = random.Random(seed), [octets for _, octets, _ in files()]
    for _ in range(count):
        octets = bytearray(chance.choice(whole))
        for _ in range(chance.randrange(1, 5)):
            place = chance.randrange(4, len(octets))
            octets[place:place + chance.choice((0, 1, 1, 1, 4))] = bytes(chance.choice((0, 1, 2, 0x40, 0x80, 0xff)) for _ in range(chance.choice((0, 1, 1, 1, 4))))
            if len(octets) < 6:
                break
        yield bytes(octets)
