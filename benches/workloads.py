"""Inputs of the program for `./bench`: eight of them near the limits, the same at every call. Each can be made smaller, so
that growth shows."""

import random

INPUT_LIMIT = 1048576
EVENT_LIMIT = 10000
INPUTS = 64
BLOCK_ENTRIES = 255

# One frame of each message, and two octets that spell none.
SHORT_FRAMES = [
    '3180', '3200010000', '33010c0503', '34', '35', '3605', '38', '3a32', '3b', '3c',
    '37' + 8 * '01' + 8 * '00', 'b180010200000400', 'b200', 'b301', 'b4feffffffffffffff00000001',
    'b5feffffffffffffff00000001', 'b6050000000003e8', 'b605018c03e700000003e8', 'b7', 'ba01', 'bc02', '30', '36',
]


def at_most(limit, lines):
    """The first lines whose text is no longer than the limit."""
    text = []
    size = 0
    for line in lines:
        size += len(line) + 1
        if size > limit:
            break
        text.append(line + '\n')
    return ''.join(text)


def entry(input_number, level, stamp):
    """An entry of a block, as digits."""
    return f'{128 * level + input_number:02x}{stamp % 65536:04x}'


def block_answer(number, entries, status, stamp):
    """A block answer as digits."""
    return f'b6{number % 256:02x}{len(entries):02x}{"".join(entries)}{status:02x}{stamp % 2**32:08x}'


def dense_entries(number, count):
    """A list of this many entries for each block, from scans at each of which all 64 inputs change."""
    places = range(count * number, count * (number + 1))
    return [entry(place % INPUTS, place // INPUTS % 2, place // INPUTS + 1) for place in places]


def full_block(number):
    """A block of 255 entries, after which more wait."""
    return block_answer(number, dense_entries(number, BLOCK_ENTRIES), 8, 4 * number + 4)


def whole_block(number, count):
    """A block of this many entries, after which none waits: the inputs change in turn at each scan, and the last scan is
    whole."""
    scans = -(-count // INPUTS)
    entries = []
    for place in range(count):
        named, scan = place % INPUTS, place // INPUTS
        earlier = number * -(-(count - named) // INPUTS) + scan
        entries.append(entry(named, earlier % 2, number * scans + scan + 1))
    return block_answer(number, entries, 0, number * scans + scans)


def varied_block(chance, number):
    """A block of 255 entries, each from a scan of its own."""
    stamp = 100000 * number
    entries = []
    for _ in range(BLOCK_ENTRIES):
        stamp += chance.randrange(1, 41)
        entries.append(entry(chance.randrange(INPUTS), chance.randrange(2), stamp))
    return block_answer(number, entries, 0, stamp + chance.randrange(60000))


def show_short(chance):
    """Lines of `show`: short frames of every type, most of them polls."""
    while True:
        if chance.randrange(3):
            yield f'36{chance.randrange(256):02x}'
        else:
            yield chance.choice(SHORT_FRAMES)


def show_long(_chance):
    """Lines of `show`: full blocks, with 64 entries per scan."""
    number = 0
    while True:
        yield full_block(number)
        number += 1


def show_varied(chance):
    """Lines of `show`: full blocks, with one entry per scan."""
    number = 0
    while True:
        yield varied_block(chance, number)
        number += 1


def short_exchange(chance, number, stamp):
    """Lines of `check`: a poll, at times twice, its answer with one entry or none, and at times other exchanges."""
    poll = f'> 36{number:02x}'
    yield poll
    if chance.randrange(4) == 0:
        yield poll
    entries = [entry(chance.randrange(INPUTS), chance.randrange(2), stamp)][:chance.randrange(2)]
    yield '< ' + block_answer(number, entries, 0, stamp)
    if chance.randrange(8) == 0:
        yield '> 34'
        yield f'< b4{chance.randrange(2**64):016x}{stamp:08x}'
    if chance.randrange(8) == 0:
        yield '> 33010c0505'
        yield '< b300'


def check_short(chance):
    """Lines of `check`: short exchanges."""
    number = 0
    stamp = 0
    while True:
        stamp += chance.randrange(50)
        yield from short_exchange(chance, number, stamp)
        number = (number + 1) % 256


def check_long(_chance):
    """Lines of `check`: polls, each answered by a full block."""
    return polled(full_block)


def polled(block):
    """Lines of `check` and `record`: polls, each answered by such a block."""
    number = 0
    while True:
        yield f'> 36{number % 256:02x}'
        yield '< ' + block(number)
        number += 1


def blocks_of(count):
    """Lines of `check` and `record`: polls, each answered by a block of this many entries."""
    return lambda _chance: polled(lambda number: whole_block(number, count))


def configured(leading, trailing):
    """The command that gives all inputs these filters."""
    items = ''.join(f'{place:02x}{leading:02x}{trailing:02x}' for place in range(INPUTS))
    return f'33{INPUTS:02x}{items}'


def used_link(chance):
    """Lines of `check` and `record`: a link in use at a busy intersection. The CPU polls every 10 ms. At each of 64
    detectors a vehicle stays for part of a second, and the next comes about ten seconds later: a dozen changes a second in
    all."""
    yield '> ' + configured(5, 5)
    yield '< b300'
    levels = [1] * INPUTS
    dues = [chance.randrange(1, 10000) for _ in range(INPUTS)]
    number = 0
    while True:
        number += 1
        stamp = 10 * number
        entries = []
        for due, place in sorted((due, place) for place, due in enumerate(dues) if due <= stamp):
            levels[place] = 1 - levels[place]
            entries.append(entry(place, levels[place], due))
            dues[place] = due + (chance.randrange(6000, 14000) if levels[place] else chance.randrange(200, 1000))
        yield f'> 36{number % 256:02x}'
        yield '< ' + block_answer(number, entries, 0, stamp)


def recorded(name):
    """The transcript of this name for which `record` is compared with `check`."""
    return at_most(INPUT_LIMIT, RECORDED[name](random.Random(2070)))


def script(filters, events, limit):
    """A script: all inputs are configured, with a filter for each, and then come these events, `limit` in all."""
    items = ''.join(f'{place:02x}{leading:02x}{trailing:02x}' for place, (leading, trailing) in enumerate(filters))
    lines = ['fio2070 script 1 2 0', f'send 33{len(filters):02x}{items}', 'to-module 1']
    for event in events:
        if len(lines) > limit:
            break
        lines.append(event)
    return ''.join(line + '\n' for line in lines)


def exchange(polls):
    """A poll that reaches the module, and its answer, which reaches the CPU. One frame was sent before."""
    return ['poll', f'to-module {polls + 1}', f'to-cpu {polls + 1}']


def lively_events(chance):
    """Scans at which an octet of the inputs changes now and then, with a poll at every fiftieth event."""
    levels = [255] * 8
    polls = 0
    while True:
        for _ in range(47):
            if chance.randrange(3) == 0:
                levels[chance.randrange(8)] = chance.randrange(256)
            yield f'scan {bytes(levels).hex()}'
        polls += 1
        yield from exchange(polls)


def idle_events():
    """Scans at which nothing changes."""
    while True:
        yield 'scan ' + 16 * 'f'


def block_events():
    """Four scans at which all inputs change, and then a poll."""
    polls = 0
    while True:
        for digit in '0f0f':
            yield 'scan ' + 16 * digit
        polls += 1
        yield from exchange(polls)


def make(name, part=1):
    """The input of this name. With a part below 1 it is smaller by that factor."""
    chance = random.Random(2070)
    size = int(part * INPUT_LIMIT)
    events = int(part * EVENT_LIMIT)
    if name == 'simulate-scans':
        filters = [(chance.randrange(1, 7), chance.randrange(1, 7)) for _ in range(INPUTS)]
        return script(filters, lively_events(chance), events)
    if name == 'simulate-idle':
        return script([(5, 5)] * INPUTS, idle_events(), events)
    if name == 'simulate-blocks':
        return script([(1, 1)] * INPUTS, block_events(), events)
    return at_most(size, LINES[name](chance))


LINES = {
    'show-short': show_short,
    'show-long': show_long,
    'show-varied': show_varied,
    'check-short': check_short,
    'check-long': check_long,
}

# The transcripts for which `record` is compared with `check`.
RECORDED = {
    'link in use': used_link,
    'no entries': blocks_of(0),
    '2 entries': blocks_of(2),
    '20 entries': blocks_of(20),
    'full blocks': blocks_of(BLOCK_ENTRIES),
}

NAMES = [
    'show-short', 'show-long', 'show-varied', 'simulate-scans', 'simulate-idle', 'simulate-blocks', 'check-short',
    'check-long',
]
