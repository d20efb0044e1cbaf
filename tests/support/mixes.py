"""Lines of several stations in one log: proved modules, of which some get planted faults, with their exchanges in any order; and lines
without frame checks of which an octet before the message is no address, or that of a station with few frames."""

import random
from typing import List, NamedTuple

from support.line_model import line_of, with_check

# How a frame is written: with its flags, its check or neither, after its header.
FORMS = {
    'flags': lambda header, octets: line_of(octets, *header).hex(' ').upper(),
    'flags, without blanks': lambda header, octets: line_of(octets, *header).hex(),
    'check': lambda header, octets: with_check(header + octets).hex(),
    'header alone': lambda header, octets: (header + octets).hex(' '),
    'address alone': lambda header, octets: (header[:1] + octets).hex(' ').upper(),
}
ADDRESSES = 0x00, 0x01, 0x02, 0x10, 0x14, 0x15, 0x20, 0x30, 0x60, 0xfe
SIDES = {'>': 'TX', '<': 'RX'}
# So many lines show all stations.
SHOWN = 40
# An octet that is no address has so many values, one after the other, and each in so many exchanges.
VALUES, EACH = (2, 3, 7, 8, 16, 24, 60, 256), (1, 2, 5, 10, 30)


def frames_of(draw, count):
    """What the proved ends of a link say, each frame with its direction."""
    from fio2070 import ConfigurationItem, Module, Poller, encode
    module, poller, levels = Module(), Poller(draw.randrange(256)), 0
    commands = [encode.configure_inputs([ConfigurationItem(number, False, 1, 1) for number in range(8)])] * draw.randrange(2)
    module.scan(0)
    for _ in range(count):
        for _ in range(draw.randrange(1, 40)):
            levels ^= draw.choice((0, 0, 1 << draw.randrange(8)))
            module.scan(levels)
        commands += [encode.raw_inputs()] * (draw.random() < .2)
        command = commands.pop() if commands else poller.poll()
        answer = module.receive(command)
        yield '>', command
        if draw.random() < .05:     # the answer is lost: the CPU asks again
            continue
        if answer[0] == 182:
            poller.hear(answer)
        yield '<', answer


def spoilt(draw, frames):
    """The frames with a fault, perhaps."""
    frames, at = list(frames), draw.randrange(4, 30)
    fault = draw.choice(['none', 'none', 'gone', 'twice', 'number'])
    if fault == 'gone':
        del frames[at]
    elif fault == 'twice':
        frames.insert(at, frames[at])
    elif fault == 'number':
        direction, octets = frames[at]
        frames[at] = direction, octets[:1] + bytes([octets[1] + 77 & 255]) + octets[2:] if octets[0] in (54, 182) else octets
    return frames


def mixed(draw, links):
    """The exchanges of links in any order, each frame with the index of its link; an exchange is a command with what is below it."""
    waiting, log = [exchanges_of(frames) for frames in links], []
    while any(waiting):
        link = draw.choice([link for link, some in enumerate(waiting) if some])
        log += [(link, *frame) for frame in waiting[link].pop(0)]
    return log


def exchanges_of(frames):
    """Frames in parts, each of which begins with a command."""
    parts = []
    for direction, octets in frames:
        if direction == '>' or not parts:
            parts.append([])
        parts[-1].append((direction, octets))
    return parts


class Mix(NamedTuple):
    """A log of several stations. `owners` are the indexes of the stations by line, `cut` those of lines that are cut."""
    form: str
    addresses: List[int]
    lines: List[str]
    owners: List[int]
    cut: List[int]

    def parts(self):
        """The log in parts: the first lines, which have frames of each station, and then an exchange each."""
        begins = [0, *(place for place, line in enumerate(self.lines) if place >= SHOWN and SIDES['>'] in line), len(self.lines)]
        return [''.join(line + '\n' for line in self.lines[begin:end]) for begin, end in zip(begins, begins[1:])]


def mix_of(seed):
    """Two to four links with their frames in any order, of which up to two are cut if that shows."""
    draw = random.Random(seed)
    form, count = draw.choice(list(FORMS)), draw.randrange(2, 5)
    addresses = draw.sample([*ADDRESSES, *(0x7d, 0x7e) * form.startswith('flags')], count)
    links = [spoilt(draw, frames_of(draw, 30)) for _ in addresses]
    log = mixed(draw, links)
    lines = ['%d.%03d %s %s' % (place // 50, 20 * place % 1000, SIDES[direction], FORMS[form](bytes([addresses[link], 0x83]), octets))
             for place, (link, direction, octets) in enumerate(log)]
    # A frame that has no last flag goes on in the next line, whose station that is.
    cut = sorted(draw.sample(range(40, len(lines)), draw.randrange(3) * (not form.startswith('flags'))))
    for place in cut:
        lines[place] = lines[place][:draw.randrange(len(lines[place]) // 2, len(lines[place]) - 1)].rstrip()
    return Mix(form, addresses, lines, [frame[0] for frame in log], cut)


def led(frames):
    """Lines of frames without checks, each with the octet before its message."""
    return ''.join('%s %02X %s\n' % (SIDES[direction], octet, octets.hex(' ').upper()) for octet, direction, octets in frames)


def slow_octet(seed):
    """A log of one link, of which an octet before the messages changes slowly: what it is, and its lines."""
    draw = random.Random('slow octet %d' % seed)
    values, each, exchange, frames = VALUES[seed % len(VALUES)], EACH[seed // len(VALUES) % len(EACH)], -1, []
    for direction, octets in frames_of(draw, 200):
        exchange += direction == '>'
        frames.append((exchange // each % values, direction, octets))
    return 'an octet of %d values, each in %d exchanges, seed %d' % (values, each, seed), led(frames)


def asked_alone(seed):
    """A log of a link, and of a station that is only asked 49 between its exchanges, and answers."""
    draw, frames = random.Random('asked 49 %d' % seed), []
    for exchange in exchanges_of(frames_of(draw, 120)):
        frames += [(0x14, *frame) for frame in exchange]
        if draw.random() < .2:
            frames += [(0x15, '>', b'\x31\0'), (0x15, '<', b'\xb1\0\0\0\0\0\0\x09')]
    return led(frames)
