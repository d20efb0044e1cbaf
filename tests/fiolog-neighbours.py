#!/usr/bin/env -S python3 -B
"""Logs that have more than one link in them: lines of other ports, other ids and other programs between those of the link; and messages
of other types, and of modules of other sizes. The expected frames are those that were written for the link; no right link is accused.
Last line: `N passed, M failed`."""

import random
import re

from support.check import Check
from support.fiolog import fiolog, frames_in, use_library, verdicts_on
from support.line_model import line_of, with_check
from support.loggers import column

# How each link writes a frame: its time, its direction, its octets. The second form is that of a neighbour.
LINKS = {
    'a port before the direction': ('{0} COM4 {1} {2}', '{0} COM7 {1} {2}', 'TX RX'),
    'a port in the middle': ('{0} ttyS1 <{1}> {2}', '{0} ttyS0 <{1}> {2}', 'write read'),
    'a channel directly before the octets': ('{0} {1} ch2: {2}', '{0} {1} ch5: {2}', 'sent received'),
    'two ids of a bus': ('{0} bus0 {1}#{3}', '{0} bus0 40C#{3}', '31A 31B'),
    'ids and counts': ('{0}  can0  {1}   [{4}]  {2}', '{0}  can0  6F2   [{4}]  {2}', '1A0 1A1'),
}

# Identifiers that are hexadecimal numbers distinguish lines only if the forms are learnt from lines of both: below the first looks the
# frames of a neighbour are read as those of the link.
NOT_TOLD = 'two ids of a bus', 'ids and counts'

# What other programs write between the frames. A 34 above the answer to it would be its command.
OTHERS = {
    'a number of an octet': lambda draw: '%s %02d' % (draw.choice(['queue', 'idle', 'fan']), draw.choice([35, 36, 49, 53, 54, 60])),
    'a percentage': lambda draw: 'load %d%%' % draw.choice([35, 36, 53]),
    'a size': lambda draw: 'read a row (%d bytes)' % draw.choice([11, 35, 36]),
}


def clock(place):
    return '07:15:%02d.%03d' % (place // 100 % 60, 10 * place % 1000)


def written(form, sides, place, direction, octets):
    """A line of a frame."""
    side = sides.split()[direction == '<']
    return form.format(clock(place), side, octets.hex(' ').upper(), octets.hex().upper(), len(octets))


def session(draw, count):
    """What the proved ends say, with commands of one octet between."""
    from fio2070 import ConfigurationItem, Module, Poller, encode
    module, poller, levels = Module(), Poller(250), 0
    commands = [encode.configure_inputs([ConfigurationItem(number, False, 1, 1) for number in range(8)])]
    for _ in range(count):
        for _ in range(5):
            levels ^= draw.choice((0, 0, 1 << draw.randrange(8)))
            module.scan(levels)
        commands += [encode.raw_inputs()] * (draw.random() < .2)
        command = commands.pop() if commands else poller.poll()
        answer = module.receive(command)
        if answer[0] == 182:
            poller.hear(answer)
        yield '>', command
        yield '<', answer


def read(lines):
    """The frames of a log, the verdicts on its lines, and the rules that are said to be broken."""
    from fiolog.summary import summary_of
    octets = ('\n'.join(lines) + '\n').encode()
    verdicts = verdicts_on(octets)
    return frames_in(verdicts), verdicts, dict(summary_of([octets]).broken)


def log_of(own, neighbour, allowed):
    """The lines of a link and its neighbour, and the frames of the link. Both are functions that write a line."""
    draw, lines, frames = random.Random(repr(allowed)), [], []
    for place, (direction, octets) in enumerate(session(draw, 80)):
        lines.append(own(place, direction, octets))
        frames.append(octets)
        if place > 6 and draw.random() < .3:
            lines.append(neighbour(draw, place))
    return lines, frames


def fault_of_not_told(own, neighbour):
    """All frames of the link are read, and those of the neighbour too."""
    lines, frames = log_of(own, neighbour, 2)
    found, _, _ = read(lines)
    missing = [octets.hex() for octets in frames if octets not in found]
    return missing or None if len(found) > len(frames) else 'only %d frames: are they told apart?' % len(found)


def fault_of(own, neighbour, allowed):
    """A log of a link and its neighbour has the frames of the link, but for the number allowed, and accuses nobody."""
    lines, frames = log_of(own, neighbour, allowed)
    found, _, broken = read(lines)
    strange = [octets.hex() for octets in found if octets not in frames]
    if broken or strange or not 0 <= len(frames) - len(found) <= allowed:
        return '%r; frames that are not of the link: %r; %d of %d are read' % (broken, strange, len(found), len(frames))
    return None


def check_sources(check):
    """A neighbour with another number says what could be messages: only those of the link are frames."""
    for name, (form, other, sides) in LINKS.items():
        def own(place, direction, octets, form=form, sides=sides):
            return written(form, sides, place, direction, octets)

        def neighbour(draw, place, form=other, sides=sides):
            octets = bytes([draw.choice((0x36, 0x31, 0x3a)), draw.randrange(256)]) + draw.randbytes(draw.choice((0, 0, 1, 6)))
            return written(form, sides, place, draw.choice('<>'), octets)
        if name in NOT_TOLD:
            check.fault('another source, not told apart: %s' % name, fault_of_not_told, own, neighbour)
        else:
            check.fault('another source: %s' % name, fault_of, own, neighbour, 2)


def check_others(check):
    """A number of two digits at the end of another program's line is no octet of the link."""
    for name, line in OTHERS.items():
        def own(place, direction, octets):
            return written('{0} {1} {2}', 'TX RX', place, direction, octets)
        check.fault('another program: %s' % name, fault_of, own, lambda draw, place, line=line: '%s %s' % (clock(place), line(draw)), 0)
    sized = ['RX b6 %02x 01 8c 03 e7 00 00 00 03 e8 (11 bytes)' % number for number in range(40)]
    sized[7] = sized[7].replace('01 8c', '03 8c')
    found, verdicts, _ = read(sized)
    check.equal('a damaged answer above good ones with their size', (39, [8]), (len(found), [one.line for one in verdicts if one.kind == 'damaged']))


def check_types(check):
    """Messages of types that this protocol has not accuse nobody. Those with a right check, and answered ones of which there are more
    than three, lose no place; fewer may be damage."""
    from fiolog.summary import summary_of
    for code in (61, 63, 70, 112, 127):
        for name, write in (('bare', lambda octets: octets.hex()), ('with checks', lambda octets: with_check(b'\x14\x83' + octets).hex())):
            for count, lost in ((3, 6 * (name == 'bare')), (4, 0), (20, 0)):
                lines, frames, draw = [], [], random.Random(code + count)
                for place, (direction, octets) in enumerate(session(draw, 80)):
                    lines.append('%s %s' % ('TX' if direction == '>' else 'RX', write(octets)))
                    frames.append(octets)
                    if direction == '<' and place % 8 == 7 and place // 8 < count:
                        lines += ['TX ' + write(bytes([code]) + draw.randbytes(3)), 'RX ' + write(bytes([code + 128]) + draw.randbytes(5))]
                found, verdicts, _ = read(lines)
                summary = summary_of([('\n'.join(lines) + '\n').encode()])
                said = [one.foreign for one in verdicts if one.foreign]
                check.equal('%d of type %d, %s' % (count, code, name), (frames, [code, code + 128] * count, {}, lost, 2 * count - lost),
                            (found, said, dict(summary.broken), summary.left_out['damaged_lines'], summary.left_out['skipped_lines']))


def sized(draw, count, size):
    """What a link says whose module has this many octets of inputs, and of outputs: each message, and whether it is read. Those of eight are
    of the proved ends."""
    from fio2070 import Module, Poller
    module, poller = Module(), Poller(draw.randrange(256))
    for _ in range(count):
        module.scan(draw.choice((0, 15)))
        command = poller.poll()
        answer = module.receive(command)
        poller.hear(answer)
        yield from (('>', command, True), ('<', answer, True))
        code, octets = draw.choice((0, 0, 52, 53, 55)), bytes(draw.choice((0, 15, 240, 255)) for _ in range(size))
        command = bytes([code]) + (octets + bytes([255]) * size) * (code == 55)
        if code and size == 8:
            yield from (('>', command, True), ('<', module.receive(command), True))
        elif code:
            answer = b'\xb7\0' + answer[-4:] if code == 55 else bytes([code + 128]) + octets + answer[-4:]
            yield from (('>', command, code != 55), ('<', answer, False))


# How a message is written.
WRITTEN = {
    'bare': lambda octets: octets.hex(),
    'with headers': lambda octets: '14 83 ' + octets.hex(' '),
    'with checks': lambda octets: with_check(b'\x14\x83' + octets).hex(),
    'with flags': lambda octets: line_of(octets).hex(' '),
}


def logged(said, write):
    """The lines of a link."""
    return ['%s %s' % ('TX' if direction == '>' else 'RX', write(octets)) for direction, octets, _ in said]


def check_sizes(check):
    """A module of another size accuses nobody and loses no place: its 180, 181 and 55, and the answers to these, are not read, which is
    said once. In lines without checks a few of them are damage."""
    for inputs, size in ((120, 15), (15, 2), (8, 1), (256, 32)):
        for name, write in WRITTEN.items():
            said = list(sized(random.Random(inputs), 100, size))
            done = fiolog('check', '--json', text='\n'.join(logged(said, write)) + '\n')
            numbers, lost = done.summary(), done.summary()['not_judged']
            words = re.findall(r'(18[01]) has %d octets? of inputs in each of (\d+) lines: a module with %d inputs\? its 180, 181 and 55 are not read, all else is judged' % (size, 8 * size), done.err)
            most = max(sum(octets[0] == code for _, octets, _ in said) for code in (180, 181))
            unread = sum(not is_read for *_, is_read in said)
            check.equal('%d inputs, %s' % (inputs, name), ([most], len(said) - unread, 0, unread, 0, 0),
                        ([int(lines) for _, lines in words], numbers['frames'], numbers['breaches'], lost['skipped_lines'], lost['damaged_lines'], lost['losses_of_sync']))
    few = list(sized(random.Random(2), 8, 15))
    done = fiolog('check', '--json', text='\n'.join(logged(few, WRITTEN['bare'])) + '\n')
    odd = sum(not is_read and octets[0] != 183 for _, octets, is_read in few)
    check.equal('few of another size', (0, 0, odd), (done.summary()['breaches'], done.summary()['not_judged']['skipped_lines'], done.summary()['not_judged']['damaged_lines']))
    check.holds('of these nothing is said', 0 < odd < 4 and 'inputs?' not in done.err, (odd, done.err))


def check_bus_of_sizes(check):
    """Beside a module of another size on its line, a module of 64 inputs is judged as alone, and is accused of its fault."""
    for name, write in (('with checks', lambda header, octets: with_check(header + octets).hex()), ('with headers', lambda header, octets: (header + octets).hex(' '))):
        own, others = list(sized(random.Random(5), 60, 8)), list(sized(random.Random(6), 60, 15))
        place = max(place for place, (_, octets, _) in enumerate(own) if octets[0] == 54)
        own[place] = '>', bytes([54, own[place][1][1] + 9 & 255]), True
        lines = []
        for pair in zip(zip(own[::2], own[1::2]), zip(others[::2], others[1::2])):
            for address, said in zip((b'\x14\x83', b'\x15\x83'), pair):
                lines += logged(said, lambda octets, address=address: write(address, octets))
        done = fiolog('check', '--json', text='\n'.join(lines) + '\n')
        alone = fiolog('check', '--json', text='\n'.join(line for line in lines if re.match(r'.X 14', line)) + '\n')
        stations, expected = done.summary()['stations'], alone.summary()
        check.equal('a bus of two sizes, %s' % name, ({name: expected[name] for name in stations['14']}, 0, 1), (stations['14'], stations['15']['breaches'], done.err.count('a module with 120 inputs?')))


def check_damage_of_sizes(check):
    """Damage to the answers of a right module of 64 inputs is damage: a digit or an octet that is gone in one of many, lines that are
    cut and say so, and answers with the next command in their line."""
    said = [one for one in sized(random.Random(9), 300, 8)]
    lines = logged(said, lambda octets: octets.hex(' '))
    levels = [place for place, (_, octets, _) in enumerate(said) if octets[0] in (180, 181)]
    damages = {
        'an octet is gone': (levels[::9], lambda line: line[:-3]),
        'two octets are gone': (levels[::9], lambda line: line[:12] + line[18:]),
        'an octet too many': (levels[::9], lambda line: line + ' 00'),
        'half of an octet is gone': (levels, lambda line: line[:-4]),
        'cut with dots': (levels, lambda line: line[:30] + '...'),
    }
    for name, (places, damage) in damages.items():
        spoilt = [damage(line) if place in places else line for place, line in enumerate(lines)]
        done = fiolog('check', '--json', text='\n'.join(spoilt) + '\n')
        found = done.summary()
        check.equal('right answers, %s' % name, (0, len(places), 0, 0),
                    (found['breaches'], found['not_judged']['damaged_lines'], found['not_judged']['skipped_lines'], done.err.count('inputs?')))
    joined = [line + ' ' + below[3:] if place in levels else line for place, (line, below) in enumerate(zip(lines, lines[1:] + ['']))
              if place - 1 not in levels]
    done = fiolog('check', '--json', text='\n'.join(joined) + '\n')
    check.equal('right answers, joined with the next command', (0, 0), (done.summary()['breaches'], done.summary()['not_judged']['skipped_lines']))


def check_counters(check):
    """Numbers that change from line to line do not tell lines apart."""
    for name, form in (('a count', '#{5:06d} {1} {2}'), ('an address', '0x{6:08x} {1} {2}'), ('a time without a form', 'T+{5} {1} {2}'),
                       ('a thread of three', 'T{7} {1} {2}'), ('a size', '{1} {4}: {2}'), ('a size in brackets', '{1} [{4}] {2}')):
        lines, frames = [], []
        for place, (direction, octets) in enumerate(session(random.Random(name), 60)):
            side = 'TX' if direction == '>' else 'RX'
            lines.append(form.format('', side, octets.hex(' '), '', len(octets), place, 0x1f4a00 + 36 * place, place % 3))
            frames.append(octets)
        found, _, broken = read(lines)
        check.equal('numbers that change: %s' % name, (frames, {}), (found, broken))


def check_digits(check):
    """A message that confirms itself is a frame, however many digits its octets have."""
    rows = [(b'\x36' + bytes([number]), bytes([182, number, 1, 12, number // 16, number, 0, 0, 0, 0, number])) for number in range(40, 100)]
    for name, form in (('plain', lambda octets: octets), ('with checks', lambda octets: with_check(b'\x14\x83' + octets))):
        lines = [' '.join('%X' % octet for octet in form(octets)) for row in rows for octets in row]
        found, _, _ = read(lines)
        check.equal('octets of one or two digits, %s' % name, [octets for row in rows for octets in row], found)


def check_dumps(check):
    """A dump whose lines have words before the offset: its last row may have one octet."""
    block = bytes([182, 7, 3, 0, 0, 10, 1, 0, 11, 2, 0, 12, 0, 0, 0, 0, 50])
    for words in ('link rx: ', '[   12.106] fio: ', '0xffff8880 rx: '):
        lines, frames = [], []
        for number in range(4):
            for octets in (bytes([54, number]), block[:1] + bytes([number]) + block[2:]):
                frames.append(octets)
                for place in range(0, len(octets), 16):
                    row = octets[place:place + 16]
                    lines.append('%s%08x: %-48s %s' % (words, place, row.hex(' '), column(row)))
        found, _, _ = read(lines)
        check.equal('a dump after %r' % words, frames, found)


def main():
    check = Check()
    use_library(check, 'logs with neighbours')
    for part in (check_sources, check_others, check_types, check_sizes, check_bus_of_sizes, check_damage_of_sizes, check_counters, check_digits, check_dumps):
        part(check)
    check.end()


main()
