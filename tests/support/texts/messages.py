"""Messages: tools/messages.json, the table of the 24 messages, is that of the proved program, of docs/PROTOCOL.md and of the
Wireshark dissector. `show` accepts only the lengths of the table and writes its words and fields, the page has its names,
lengths and positions, and the dissector has what tools/generate-messages writes."""

import os
import random
import re
import subprocess

from support.messages import ELEMENT, FIRST_LINES, KNOWN, MESSAGES, is_counted, length_of, octets_of
from support.pages import text_of
from support.tables import TOP, output_of

LONGEST_FRAME = 773
# A row of a table of the page: types, a name if the table has one, length, and where the fields are.
ROW = re.compile(r'^\| (\d+(?:, \d+)*) \|(?: ([a-z ]+) \|)? (\d+(?: \+ 3n)?|1–773) \|(.*)\|$', re.MULTILINE)


def page_rows():
    """What docs/PROTOCOL.md says about each type: name, length, the positions of the octets."""
    found = ROW.findall(text_of('docs/PROTOCOL.md'))
    return {int(kind): (name, length, re.findall(r'(?:^|; )\s*(\d+(?:–\d+)?):', places))
            for kinds, name, length, places in found for kind in kinds.split(', ')}


def length_words(message):
    """The length of a message as the page has it."""
    rest = length_of(message)
    if rest is None:
        return '1–%d' % LONGEST_FRAME
    return '%d + 3n' % (1 + rest) if is_counted(message) else str(1 + rest)


def places_of(message):
    """The positions of the parts in the frame as the page has them, up to the first that a count moves."""
    places, offset = [], 1
    for part in message['parts']:
        size = octets_of(part)
        if size is None:
            break
        if size:
            places.append(str(offset) if size == 1 else '%d–%d' % (offset, offset + size - 1))
        offset += size
        if part.get('form') in ('items', 'entries'):
            break
    return places


def field_words(part, octets):
    """A field as `show` writes it."""
    if part['form'] == 'number':
        return str(int.from_bytes(octets, 'big'))
    if part['form'] in ('items', 'entries'):
        return str(octets[0])
    return octets.hex() or '-'


def random_frame(draw, message):
    """A frame of a message, and the first line that `show` should write for it."""
    count = draw.randrange(6)
    octets, line = bytes([message['type']]), FIRST_LINES[message['type']]
    for part in message['parts']:
        size = octets_of(part, count)
        field = draw.randbytes(draw.randrange(20) if size is None else size)
        if part.get('form') in ('items', 'entries'):
            field = bytes([count]) + field[1:]
        if 'field' in part:
            line = re.sub(r'\{%s(:[xo])?\}' % re.escape(part['field']), field_words(part, field), line, count=1)
        octets += field
    return octets, line


def first_lines(frames):
    """The first line that `show` writes for each frame, without its number."""
    text = ''.join(frame.hex() + '\n' for frame in frames)
    lines = [line for line in output_of('show', text)[0].splitlines() if not line.startswith('  ')]
    return [re.sub(r'^line \d+: ', '', line) for line in lines]


def check_program(check):
    """The program accepts and writes what the table has."""
    draw = random.Random(20)
    for message in MESSAGES:
        pairs = [random_frame(draw, message) for _ in range(100)]
        check.equal('first lines of type %d' % message['type'], [line for _, line in pairs],
                    first_lines([octets for octets, _ in pairs]))
        rest = length_of(message)
        fits = range(LONGEST_FRAME) if rest is None else [rest]
        frames = [bytes([message['type']]) + bytes(length) for length in range(40)]
        accepted = [length for length, line in enumerate(first_lines(frames)) if not line.startswith('wrong length')]
        check.equal('lengths of type %d' % message['type'], [length for length in range(40) if length in fits], accepted)
    unknown = [bytes([kind]) for kind in range(256) if kind not in KNOWN]
    check.equal('types that are no message', ['unknown type %d' % frame[0] for frame in unknown], first_lines(unknown))


def check_page(check):
    """The page has the names, the lengths and the positions of the table."""
    rows = page_rows()
    check.equal('types of the page', KNOWN, sorted(rows))
    for message in MESSAGES:
        name, length, places = rows.get(message['type'], ('', '', []))
        check.equal('length of type %d in the page' % message['type'], length_words(message), length)
        if name:
            check.equal('name of type %d in the page' % message['type'], message['name'], name)
        check.equal('places of type %d in the page' % message['type'], places_of(message), places)


def rows(check):
    """Compares the table with the dissector, the page and the program."""
    done = subprocess.run([os.path.join(TOP, 'tools', 'generate-messages'), '--check'], stdout=subprocess.PIPE)
    check.equal('the table of the dissector', (0, b''), (done.returncode, done.stdout))
    check.equal('octets of an element', 3, ELEMENT)
    check_page(check)
    check_program(check)
