"""Logs as other tools write them: each function writes frames in one form. A frame is its time in seconds, its direction,
`>` from the CPU or `<` to it, and its octets."""

import csv
import io
import json
import time

from support.line_model import frame_check, with_check

START = 1795331702      # 2026-11-22 07:15:02 UTC


def pairs(octets, form='%02X', between=' '):
    return between.join(form % octet for octet in octets)


def rows_of(octets, width=16):
    """Octets in rows of this width."""
    return [octets[place:place + width] for place in range(0, len(octets), width)]


def column(octets):
    """The characters of octets, with a dot for each octet that has none."""
    return ''.join(chr(octet) if 0x20 <= octet < 0x7f else '.' for octet in octets)


def stamp(seconds, form, point='.', digits=3):
    whole, part = divmod(round(seconds * 10 ** digits), 10 ** digits)
    return time.strftime(form, time.gmtime(START + whole)) + '%s%0*d' % (point, digits, part)


def words(sent, heard):
    return {'>': sent, '<': heard}


def each_line(line):
    """A form with one line for each frame."""
    def log(frames):
        return ''.join(line(*frame) + '\n' for frame in frames)
    return log


def hexdump(octets):
    """As `hexdump -C` writes octets, without the last offset."""
    return ['%08x  %-49s |%s|' % (16 * number, '  '.join((row[:8].hex(' '), row[8:].hex(' '))).rstrip(), column(row))
            for number, row in enumerate(rows_of(octets))]


def xxd(octets):
    return ['%08x: %-40s %s' % (16 * number, row.hex(' ', -2), column(row)) for number, row in enumerate(rows_of(octets))]


def dumped(dump, head):
    """A form with a heading and a dump for each frame."""
    def log(frames):
        lines = []
        for seconds, direction, octets in frames:
            lines += [head(seconds, direction, octets)] + dump(octets) + ['']
        return '\n'.join(lines) + '\n'
    return log


def wrapped(frames):
    lines = []
    for seconds, direction, octets in frames:
        rows = map(pairs, rows_of(octets))
        head = '%s %s: ' % (stamp(seconds, '%H:%M:%S'), words('TX', 'RX')[direction])
        lines += [head + next(rows), *(' ' * len(head) + row for row in rows)]
    return '\n'.join(lines) + '\n'


def saleae_octets(frames):
    lines = ['Time [s],Value,Parity Error,Framing Error']
    for seconds, _, octets in frames:
        lines += ['%.9f,0x%02X,,' % (seconds + 0.000_065 * place, octet) for place, octet in enumerate(octets)]
    return '\n'.join(lines) + '\n'


def saleae_frames(frames):
    text = io.StringIO()
    rows = csv.writer(text, lineterminator='\n')
    rows.writerow(['name', 'type', 'start_time', 'duration', 'data'])
    for seconds, direction, octets in frames:
        for place, octet in enumerate(octets):
            rows.writerow([words('CPU', 'FIO')[direction], 'data', '%.9f' % (seconds + 0.000_065 * place), '6e-05',
                           '0x%02X' % octet])
    return text.getvalue()


def table(frames):
    text = io.StringIO()
    rows = csv.writer(text, delimiter=';', lineterminator='\r\n')
    rows.writerow(['No.', 'Timestamp', 'Direction', 'Length', 'Data', 'Comment'])
    for number, (seconds, direction, octets) in enumerate(frames, 1):
        rows.writerow([number, stamp(seconds, '%Y-%m-%d %H:%M:%S'), words('Tx', 'Rx')[direction], len(octets),
                       pairs(octets), ''])
    return text.getvalue()


def c_arrays(frames):
    lines = ['/* Frames of the bench. */']
    for number, (_, direction, octets) in enumerate(frames):
        lines.append('static const uint8_t %s_%d[%d] = {' % (words('tx', 'rx')[direction], number, len(octets)))
        lines += ['    ' + pairs(row, '0x%02x', ', ') + ',' for row in rows_of(octets, 12)]
        lines.append('};')
    return '\n'.join(lines) + '\n'


def sdlc(octets):
    return b'\x7e' + with_check(b'\x14\x83' + octets) + b'\x7e'


def putty(frames):
    lines = ['=~=~=~=~=~=~=~=~=~=~=~= PuTTY log 2026.11.22 07:15:02 =~=~=~=~=~=~=~=~=~=~=~=']
    for seconds, direction, octets in frames:
        lines.append('%s raw data at %s' % (words('Outgoing', 'Incoming')[direction],
                                            time.strftime('%Y-%m-%d %H:%M:%S', time.gmtime(START + seconds))))
        lines += ['  %08x  %-47s  %s' % (16 * number, row.hex(' '), column(row)) for number, row in enumerate(rows_of(octets))]
    return '\n'.join(lines) + '\n'


def hdlc_rows(frames):
    """As Saleae's analyser of HDLC writes a row for each octet, with what it is."""
    lines = ['name,type,start_time,duration,data,error']
    for seconds, direction, octets in frames:
        frame = b'\x14\x83' + octets
        check = '0x%04X' % int.from_bytes(frame_check(frame), 'big')
        rows = [('flag', '0x7E'), ('address', '0x14'), ('control', '0x83'), *(('byte', '0x%02X' % octet) for octet in octets),
                ('fcs', check), ('flag', '0x7E')]
        lines += ['"%s","%s",%.9f,6e-05,%s,' % (words('CPU', 'FIO')[direction], kind, seconds + 0.000_065 * place, value)
                  for place, (kind, value) in enumerate(rows)]
    return '\n'.join(lines) + '\n'


def columned(octets, indent):
    """Octets wrapped at 16, with their characters."""
    return [indent + '%-47s   %s' % (row.hex(' '), column(row)) for row in rows_of(octets)]


def docklight(frames):
    return 'Docklight Log File (HEX) started 22.11.2026 07:15:00.000\n\n' + ''.join(
        '%s [%s] - %s \n' % (stamp(seconds, '%d.%m.%Y %H:%M:%S'), words('TX', 'RX')[direction], pairs(octets))
        for seconds, direction, octets in frames)


def octet_words(octets):
    return '0x' + pairs(octets, '%02X', ', 0x')


LOGGERS = {
    'frames': each_line(lambda t, d, o: o.hex()),
    'transcript': each_line(lambda t, d, o: d + ' ' + o.hex()),
    'TX and RX': each_line(lambda t, d, o: '%s %s' % (words('TX:', 'RX:')[d], pairs(o))),
    'arrows': each_line(lambda t, d, o: '[%12.6f] %s %s' % (t, words('-->', '<--')[d], pairs(o, '%02x'))),
    'CPU and FIO': each_line(lambda t, d, o: '%s %s' % (words('CPU:', 'FIO:')[d], pairs(o))),
    'WRITE and READ': each_line(lambda t, d, o: '%s %s %s' % (stamp(t, '%H:%M:%S'), words('WRITE', 'READ')[d], pairs(o))),
    'counts': each_line(lambda t, d, o: '%s (%d): %s' % (words('TX', 'RX')[d], len(o), pairs(o))),
    'ISO times': each_line(lambda t, d, o: '%sZ %s %s' % (stamp(t, '%Y-%m-%dT%H:%M:%S'), words('tx', 'rx')[d], o.hex())),
    'epoch times': each_line(lambda t, d, o: '%.6f %s %s' % (START + t, words('>', '<')[d], pairs(o, '%02x'))),
    'German times': each_line(lambda t, d, o: '%s  %s  %s' % (stamp(t, '%d.%m.%Y %H:%M:%S', ','),
                                                             words('gesendet TX', 'empfangen RX')[d], pairs(o))),
    'US times': each_line(lambda t, d, o: '%s AM - %s - %s' % (stamp(t, '%m/%d/%Y %I:%M:%S'),
                                                               words('Sent', 'Received')[d], pairs(o))),
    'Saleae': saleae_octets,
    'Saleae with names': saleae_frames,
    'table': table,
    'JSON lines': each_line(lambda t, d, o: json.dumps({'ts': START + t, 'dir': words('tx', 'rx')[d], 'len': len(o),
                                                        'data': o.hex()})),
    'hexdump -C': dumped(hexdump, lambda t, d, o: '%s %s %d bytes' % (stamp(t, '%H:%M:%S'), words('TX', 'RX')[d], len(o))),
    'xxd': dumped(xxd, lambda t, d, o: '# ' + words('sent', 'received')[d]),
    'wrapped at 16': wrapped,
    'candump': each_line(lambda t, d, o: '(%.6f) can0 %s##1%s' % (START + t, words('2A1', '2A2')[d], o.hex().upper())),
    'C arrays': c_arrays,
    'Python bytes': each_line(lambda t, d, o: '%s DEBUG link: %s %r' % (stamp(t, '%Y-%m-%d %H:%M:%S', ','),
                                                                       words('sent', 'received')[d], o)),
    'syslog': each_line(lambda t, d, o: '%s cabinet-12 fiod[412]: %s %s' % (
        time.strftime('%b %d %H:%M:%S', time.gmtime(START + t)), words('TX', 'RX')[d], pairs(o, '%02x'))),
    'PuTTY': putty,
    'Docklight': docklight,
    'SDLC': each_line(lambda t, d, o: '%10.4f  %s' % (t, pairs(sdlc(o)))),
    'CRLF, mark and tabs': lambda frames: '\ufeff' + ''.join(
        '%s\t%s\t%s\r\n' % (stamp(t, '%H:%M:%S'), words('OUT', 'IN')[d], pairs(o)) for t, d, o in frames),
    '0x and commas': each_line(lambda t, d, o: '%s %s' % (words('>>', '<<')[d], octet_words(o))),
    'characters': each_line(lambda t, d, o: '%s %s   %s' % (words('T', 'R')[d], pairs(o, '%02x'), column(o))),
    'RealTerm': each_line(lambda t, d, o: '"%s",%s ' % (stamp(t, '%Y/%m/%d %H:%M:%S'), pairs(o))),
    'Saleae HDLC': hdlc_rows,
    'Python logging': each_line(lambda t, d, o: 'DEBUG:fio.link:%s %s' % (words('tx', 'rx')[d], o.hex())),
    'Python words': each_line(lambda t, d, o: 'INFO:root:%s %s' % (words('->', '<-')[d], [hex(octet) for octet in o])),
    'socat -x -v': dumped(lambda octets: columned(octets, ' ') + ['--'], lambda t, d, o: '%s %s  length=%d from=0 to=%d' % (
        d, stamp(t, '%Y/%m/%d %H:%M:%S', digits=6), len(o), len(o) - 1)),
    'serial monitor': dumped(lambda octets: columned(octets, '\t'), lambda t, d, o: '[%s] %s data (COM3)' % (
        stamp(t, '%d/%m/%Y %H:%M:%S'), words('Written', 'Read')[d])),
    'JSON of numbers': each_line(lambda t, d, o: json.dumps([t, words('tx', 'rx')[d], list(o)])),
    'line numbers': lambda frames: ''.join('%6d  %s %s\n' % (number, words('TX', 'RX')[d], pairs(o))
                                           for number, (_, d, o) in enumerate(frames, 1)),
}
