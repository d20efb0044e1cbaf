#!/usr/bin/env -S python3 -B
"""Files of captured packets, pcap and pcapng, as `fiolog` reads them: each packet of tests/support/packets.py gives the line that is
stated there, however the octets come; tshark finds the same datagrams; a packet that is cut is damage, and what is lost accuses nobody;
what `fiolog convert` writes as pcapng is read again; and what is said of files that are no log. Last line: `N passed, M failed`."""

import os
import shutil
import tempfile

from support import packets
from support.check import Check
from support.fiolog import fiolog, use_library, written
from support.kinds import LITTLE
from support.packets import BLOCK, POLL, ethernet, ipv4, pcap, udp
from support.tables import TOP
from support.tshark import Tshark

EXAMPLES = os.path.join(TOP, 'examples')
# The octets of a piece that is not the shortest.
PIECE = 7


def lines_of(octets, piece=None):
    from fiolog import captures
    piece = piece or len(octets)
    return b''.join(captures.lines_of(octets[start:start + piece] for start in range(0, len(octets), piece))).decode()


def check_lines(check):
    """Each file gives the lines that are stated, also in pieces of one octet."""
    for name, octets, expected in packets.files():
        check.equal(name, expected, lines_of(octets).splitlines())
        check.equal('%s, in pieces' % name, lines_of(octets), lines_of(octets, 1))
    count = 3000 if check.given.all else 300
    check.equal('damaged files, in pieces', [], [octets.hex() for octets in packets.damaged(count) if lines_of(octets) != lines_of(octets, PIECE)])


def datagrams_of(lines):
    """By the number of its packet, the time and octets of each datagram."""
    words = {number: line.split(' ') for number, line in enumerate(lines, 1) if ' udp' in line}
    return {number: (float(time), octets) for number, (time, _, octets) in words.items()}


def check_tshark(check, folder):
    """tshark finds the same datagrams, at the same times, in packets of which nothing is lost: what it makes of others is its own."""
    if not shutil.which('tshark'):
        check.skip('the datagrams that tshark finds', 'no tshark here')
        return
    tshark = Tshark(folder)
    for name, octets, expected in packets.files():
        is_read = ' udp' in ''.join(expected) and not {packets.EARLY, packets.BROKEN} & set(expected)
        is_quick = name.endswith(', <') and not name.startswith('steps') or not name.endswith(('<', '>', 'ns'))
        if is_read and check.wants(name) and (is_quick or check.given.all):
            rows = tshark.columns(written(folder, 'capture', octets), ['-o', 'ip.defragment:FALSE'], ['frame.number', 'frame.time_epoch', 'udp.payload', 'udp'])
            found = {int(number): (float(time), octets) for number, time, octets, is_udp in rows
                     if is_udp and 'octets lost' not in expected[int(number) - 1]}
            check.equal('%s, as tshark reads it' % name, datagrams_of(expected), found)
        if name.startswith('USB, ') and 'text' not in name and check.wants(name):
            rows = tshark.columns(written(folder, 'capture', octets), [], ['frame.number', 'usb.capdata', 'usb.transfer_type'])
            found = {int(number): data.replace(':', '') for number, data, transfer in rows if data and transfer == '0x03'}
            check.equal('%s, as tshark reads it' % name, {number: line.split(' ')[2] for number, line in enumerate(expected, 1) if ' usb' in line}, found)
    check.whole('all files, as tshark reads them')


def of_link(*octets, cut=None):
    """A capture of messages between two ends; the one with this index is cut."""
    file = pcap([ethernet(ipv4(udp(one))) for one in octets], 1)
    if cut is None:
        return file
    size, head = len(ethernet(ipv4(udp(octets[cut])))) - 1, 24 + sum(16 + len(ethernet(ipv4(udp(one)))) for one in octets[:cut])
    return file[:head + 8] + size.to_bytes(4, 'little') + file[head + 12:head + 16 + size] + file[head + 17 + size:]


def check_judged(check, folder):
    """A capture is judged as its messages are; a cut packet and a part of one are damage, and accuse nobody."""
    block = [bytes.fromhex('b60%d0000000000%02x' % (number, number)) for number in range(5)]
    poll = [bytes.fromhex('360%d' % number) for number in range(5)]
    link = [one for pair in zip(poll, block) for one in pair]
    for name, octets, status, words in (
            ('a right link', of_link(*link), 0, 'breaches 0'), ('a doubled answer', of_link(*link[:4], link[3], *link[4:]), 1, 'pair'),
            ('an answer that is missing', of_link(*link[:3], *link[4:]), 1, 'advance'),
            ('an answer that is cut', of_link(*link, cut=3), 0, '1 skipped line (octets may be lost)'),
            ('other packets between', pcap([one for octets in link for one in (ethernet(ipv4(udp(octets))), ethernet(ipv4(bytes(20), protocol=6)),
                                                                              ethernet(ipv4(udp(bytes(12), (53, 5353)))))], 1), 0,
             '20 skipped lines (no octets)')):
        done = fiolog('check', written(folder, 'link.pcap', octets))
        check.equal(name, (status, True), (done.status, words in done.out))
    parts = pcap([ethernet(ipv4(udp(one))) if place != 3 else ethernet(ipv4(udp(one)[:8], part=0x2000)) for place, one in enumerate(link)], 1)
    done = fiolog('check', written(folder, 'parts.pcap', parts))
    check.equal('an answer in parts', (0, True), (done.status, '1 skipped line (octets may be lost)' in done.out))
    many = [ethernet(ipv4(udp(bytes.fromhex('12340100000100000000000003777777')), ends=(bytes((10, 0, 0, 9)), bytes((8, 8, 8, 8)))).replace(b'\x9c\x40', place.to_bytes(2, 'big'), 1))
            for place in range(1024, 3024)]
    done = fiolog('check', written(folder, 'many.pcap', pcap([*many[:1000], *(ethernet(ipv4(udp(one))) for one in link), *many[1000:]], 1)))
    check.equal('a link among 2,000 other pairs of ends', (0, True), (done.status, 'frames 10, polls 5' in done.out))
    for name in ('doubled-entry', 'good', 'lost-answer', 'given-up-block'):
        text = os.path.join(EXAMPLES, name + '.transcript')
        fiolog('convert', '--to', 'pcapng', '-o', os.path.join(folder, name), text)
        counts = [fiolog('check', '-q', path).found('^frames .*') for path in (text, os.path.join(folder, name))]
        check.equal('%s, written and read' % name, counts[0], counts[1])


def check_kinds(check, folder):
    """What a file is in which no frame is, and what to do."""
    for name, octets, words in (
            ('an empty file', b'', 'this is an empty file'), ('a capture without a datagram', pcap([bytes(60)], 1), 'this is a capture of packets'),
            ('another link type', pcap([bytes(60)], 105), 'this is a capture of packets'), ('a zip archive', b'PK\3\4' + bytes(40), 'unpack it first'),
            ('a script', b'fio2070 script 1 2 0\npoll\n', 'this is a script'), ('a record', b'record 1\ngap\n', 'read the log itself'),
            ('zeros', bytes(100), 'this is a binary file'), ('a text', b'Dear all,\n', 'no frame in 1 line')):
        done = fiolog('check', written(folder, 'file', octets))
        check.equal('of %s is said' % name, (LITTLE, True), (done.status, words in done.err))


def main():
    check = Check()
    use_library(check, 'files of captured packets')
    with tempfile.TemporaryDirectory() as folder:
        check_lines(check)
        check_judged(check, folder)
        check_kinds(check, folder)
        check_tshark(check, folder)
    check.end()


main()
