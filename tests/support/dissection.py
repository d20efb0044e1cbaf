"""What the Wireshark dissector should say about frames: the lines that `show` writes for each, and the links between
commands and answers as a search through the whole transcript finds them; and about hostile lines what the library says of what is
between two flags, without octet stuffing, as a capture of SDLC carries it."""

import random
import re

from support.hostile_lines import hostile_line
from support.line_model import FLAG, LOST, line_of, unstuffed
from support.messages import FIRST_LINES
from support.tables import output_of
from support.tshark import BARE, FIELDS

FAULT = re.compile(r'empty|too long got \d+|unknown type \d+|wrong length needed \d+ got \d+')
ITEM = ('input', 'ignore', 'leading', 'trailing')
ENTRY = ('input', 'state', 'stamp', 'wide')
LARGEST_INPUT = 1_000_000
# What is compared of a part of a hostile line, and the least share that frames have of the parts, and others too.
NAMES = ('fio2070_sdlc.address', 'fio2070_sdlc.control', 'fio2070.octets', '_ws.expert.message', '_ws.col.Info')
LEAST_SHARE = 0.1


def shown(frames):
    """For each frame, the lines that `show` writes, without `line N: ` in front."""
    groups, start = [], 0
    while start < len(frames):
        end, size = start, 0
        while end < len(frames) and size + 2 * len(frames[end]) < LARGEST_INPUT:
            size += 2 * len(frames[end]) + 1
            end += 1
        pieces = []
        for line in output_of('show', ''.join(frame.hex() + '\n' for frame in frames[start:end]))[0].splitlines():
            if line.startswith('  '):
                pieces[-1].append(line)
            else:
                pieces.append([line.removeprefix('line %d: ' % (len(pieces) + 1))])
        assert len(pieces) == end - start, 'show wrote another number of lines'
        groups, start = groups + pieces, end
    return groups


def values(row, name):
    """The values of a field that can appear more than once in a frame."""
    return row[name].split('|') if row[name] else []


def is_true(word):
    """The value of a Boolean field; later versions of tshark write words."""
    return {'True': True, 'False': False, '1': True, '0': False}.get(word)


def spelled(row):
    """The lines of `show`, written anew from the fields of a frame alone."""
    def word(match):
        text = row['fio2070.' + match.group(1)]
        if match.group(2) == ':x':
            return '%02x' % int(text, 16)
        return text.replace(':', '') or '-' if match.group(2) == ':o' else text

    lines = [re.sub(r'\{([a-z.]+)(:[xo])?\}', word, FIRST_LINES[int(row['fio2070.type'])])]
    for group, names in (('item', ITEM), ('entry', ENTRY)):
        columns = [values(row, 'fio2070.%s.%s' % (group, name)) for name in names]
        if len(set(map(len, columns))) != 1:
            raise ValueError('columns of unequal length')
        lines += [spelled_element(names, element) for element in zip(*columns)]
    return lines


def spelled_element(names, element):
    """The line of an item or an entry."""
    return '  ' + ' '.join('%s %s' % pair for pair in zip(names, element))


def facts_of_frame(row, octets):
    """What the dissector says about a frame, by name."""
    notices = values(row, '_ws.expert.message')
    refused = bool(FAULT.fullmatch(row['_ws.col.Info']))
    decoded = [name for name in FIELDS if row[name] and re.match(r'fio2070\.(?!octets|type|undecoded)', name)]
    facts = {
        'Info': row['_ws.col.Info'],
        'protocol': row['_ws.col.Protocol'],
        'octets': row['fio2070.octets'].replace(':', ''),
        'type': row['fio2070.type'],
        'answer': is_true(row['fio2070.type.answer']),
        'faults': [text for text in notices if FAULT.fullmatch(text)],
        'malformed': row['_ws.malformed'] != '',
        'undecoded': row['fio2070.undecoded'].replace(':', ''),
        'inputs above 63': sum(bool(re.fullmatch(r'input \d+ is above 63', text)) for text in notices),
        'frame checks': [text for text in notices if text.startswith('frame check ')],
        'lines': decoded if refused else spelled(row),
    }
    if octets[0] == 182 and not refused:
        for letter in 'CFEG':
            facts[letter] = is_true(row['fio2070.block.flags.' + letter.lower()])
            facts['notice ' + letter] = any(text.startswith(letter + ': ') for text in notices)
    return facts


def expected_of_frame(octets, lines):
    """What it should say, from the octets and the lines of `show`."""
    refused = bool(FAULT.fullmatch(lines[0]))
    inputs = [int(line.split()[1]) for line in lines[1:]]
    facts = {
        'Info': lines[0],
        'protocol': 'FIO2070',
        'octets': octets.hex(),
        'type': str(octets[0]),
        'answer': octets[0] >= 128,
        'faults': [lines[0]] if refused else [],
        'malformed': refused,
        'undecoded': octets[1:].hex() if refused else '',
        'inputs above 63': sum(number > 63 for number in inputs),
        'frame checks': [],
        'lines': [] if refused else lines,
    }
    if octets[0] == 182 and not refused:
        for letter, bit in zip('CFEG', (8, 4, 2, 1)):
            facts[letter] = facts['notice ' + letter] = bool(octets[-5] & bit)
    return facts


def fault_of_frame(octets, lines, row):
    """The first difference between what the dissector says about a frame and what it should say, or None."""
    try:
        found = facts_of_frame(row, octets)
    except ValueError as fault:
        return 'fields of %s: %s' % (octets.hex()[:40], fault)
    for name, expected in expected_of_frame(octets, lines).items():
        if found.get(name) != expected:
            return '%s of %s: %r, expected %r' % (name, octets.hex()[:40], found.get(name), expected)
    return None


def commands_of(frames, kinds):
    """For each answer that was asked for, the index of its command: the last before it of its type and, for a block answer,
    with its number."""
    def asks(above, place):
        return kinds[above] == kinds[place] - 128 and (kinds[place] != 182 or frames[above][1] == frames[place][1])

    answers = [place for place, kind in enumerate(kinds) if kind >= 128]
    asked = {place: [above for above in range(place) if asks(above, place)] for place in answers}
    return {place: found[-1] for place, found in asked.items() if found}


def expected_links(frames, shows):
    """For each frame: the index of its first answer, of its command, and of the poll that it repeats; whether it skips a
    block, was not asked for, or is a further answer."""
    # The type of each frame, or 0 if it spells no message.
    kinds = [0 if FAULT.fullmatch(lines[0]) else octets[0] for octets, lines in zip(frames, shows)]
    commands = commands_of(frames, kinds)
    links, last_poll = [], None
    for place, octets in enumerate(frames):
        answers = [answer for answer in sorted(commands) if commands[answer] == place]
        repeated, skips = None, False
        if kinds[place] == 54:
            if last_poll is not None and frames[last_poll] == octets:
                repeated = last_poll
            elif last_poll is not None:
                answered = any(commands[answer] == last_poll and answer < place for answer in commands)
                skips = (octets[1] - frames[last_poll][1]) % 256 != 1 or not answered
            last_poll = place
        command = commands.get(place)
        unasked = kinds[place] >= 128 and command is None
        further = command is not None and any(commands[answer] == command for answer in commands if answer < place)
        links.append((answers[0] if answers else None, command, repeated, skips, unasked, further))
    return links


def links_of(row):
    """The same, as the dissector says it about a frame."""
    notices = values(row, '_ws.expert.message')

    def said(form):
        return any(re.fullmatch(form, text) for text in notices)

    places = [int(row['fio2070.' + name]) - 1 if row['fio2070.' + name] else None
              for name in ('response_in', 'response_to', 'repeat_of')]
    if said(r'poll of block \d+ again') != (places[2] is not None):
        return 'a notice of a repeat that does not fit'
    skips = said(r'block \d+ is asked for after block \d+') or said(r'block \d+ was given up: .*')
    return (*places, skips, said('no command in this capture asks for this answer'), said('further answer to .*'))


def fault_of_links(frames, shows, rows):
    """The first difference in the links of a transcript whose frames are a millisecond apart, or None."""
    for place, (expected, row) in enumerate(zip(expected_links(frames, shows), rows, strict=True)):
        if links_of(row) != expected:
            return 'links of frame %d: %r, expected %r' % (place + 1, links_of(row), expected)
        if expected[1] is not None and round(float(row['fio2070.time']) * 1000) != place - expected[1]:
            return 'time of frame %d: %s' % (place + 1, row['fio2070.time'])
    return None


def hostile_parts(count):
    """What the library says of each part of hostile lines, and the part without stuffing; of one that ends with an escape None."""
    import fio2070
    dice = random.Random(6)
    for _ in range(count):
        long = [*line_of(bytes(dice.choice((773, 774, 900))))] if dice.random() < 0.02 else []
        line = [octet for octet in hostile_line(dice) + long if octet is not LOST]
        parts = filter(None, bytes(line).split(bytes([FLAG]))[1:-1])
        yield from zip(fio2070.Wire().read(bytes(line)), map(unstuffed, map(list, parts)), strict=True)


def heard_of(address, control, octets, experts, info):
    """What the dissector says of a part, in the library's words: the frame, or that it is damaged."""
    if not octets or any(words.startswith('frame check ') for words in experts.split('|')) or info.startswith('too long '):
        return 'damaged', None, None, b''
    return 'message', int(address, 16), int(control, 16), bytes.fromhex(octets.replace(':', ''))


def fault_of_hostile_lines(tshark, count):
    """The first part of which the dissector and the library say different things, or None."""
    found = list(hostile_parts(count))
    if any(octets is None and heard.kind != 'damaged' for heard, octets in found):
        return 'an open part is a frame'
    found = [(heard, octets) for heard, octets in found if octets is not None]
    frames = sum(heard.kind == 'message' for heard, _ in found) / len(found)
    if not LEAST_SHARE < frames < 1 - LEAST_SHARE:
        return 'the lines are one-sided: %d of 100 parts are frames' % (100 * frames)
    rows = tshark.columns(tshark.capture(BARE, [octets for _, octets in found]), ['-o', 'fio2070_sdlc.user:0'], NAMES)
    return next(('%s: the library hears %s, the dissector %s' % (octets.hex()[:40], heard, row)
                 for (heard, octets), row in zip(found, rows, strict=True) if heard_of(*row) != heard), None)
