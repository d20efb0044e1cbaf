"""`fiolog decode`: what each frame says."""

import functools
import re
import sys

from fio2070.constants import LOG_FROM_CPU

from . import log, statuses, terminal
from .event import BAD, DAMAGED, DROPPED, END_OF_TIME, FRAME, LOSSES, OTHER, TIME_KINDS, WAITING, clock_of
from .log_words import WAITING as UNSURE
from .message import BLOCK, SENT_AGAIN, SHORT, message_of, spells
from .options import add_reading, number_in
from .terminal import shown

SPOKEN = FRAME, WAITING
SHOWN = *SPOKEN, BAD, OTHER, *LOSSES
# How the words of a line begin that may have held a frame.
_LOST = {DAMAGED: 'damaged: '}
# The most characters of a damaged line that are shown.
MOST_SHOWN = 100
# The stamp 0, at the end of the words of a block.
_NO_STAMP = re.compile(r'(?<= stamp )0')
COLUMNS = ['file', 'line', 'time', 'direction', 'octets', 'type', 'says', 'input', 'state', 'stamp', 'wide']


def add_arguments(parser):
    add_reading(parser)
    form = parser.add_mutually_exclusive_group()
    form.add_argument('--json', action='store_true',
                      help='one object a line: file, line, time (seconds or null), direction (> or <) and octets; then fault, or '
                           'type, says, the numbers of that message by name, what its status bits say, of a repeated block that it '
                           'is one, and entries or items')
    form.add_argument('--csv', action='store_true', help='a table; an entry a row')
    parser.add_argument('--input', type=number_in(0, 63), metavar='N', help='only messages with this input, and of them its lines')
    parser.add_argument('--color', choices=('auto', 'always', 'never'), default='auto', help='colours (on a terminal)')


def fault_in(event):
    """What is wrong with a line that says no message."""
    if event.kind == BAD:
        return event.note
    if event.kind == OTHER:
        return '%s: %s' % (event.note, event.octets.hex())
    words = _LOST.get(event.kind, '') + event.note
    return '%s: %s' % (words, shown(event.text[:MOST_SHOWN])) if event.raw else words


def spoken(event):
    """The message that a line says; None if it spells none."""
    return message_of(event.octets) if event.kind in SPOKEN or event.kind == OTHER and spells(event.octets) else None


def parts_of(message, number):
    """The entries or items of a message; only those of an input, if that is not None."""
    return [part for part in message.parts if number in (None, part['input'])]


class Text:
    """Writes messages in the words of `show`, and what the bits of a status say; one that is not sure is marked. Of messages with entries
    or items only those of the input, if that is not None."""

    def __init__(self, write, paint, number=None):
        self.write, self.paint, self.number = write, paint, number
        self.short, self.empty = (functools.lru_cache(maxsize=1024)(says) for says in (self._says, self._empty))

    def __call__(self, name, event, message):
        if message is None:
            says = self.paint('fault', fault_in(event)) + '\n'
        else:
            note = self.paint('fault', '  ' + UNSURE) if event.kind == WAITING else self.paint('dim', '  ' + event.note) if event.kind == OTHER else ''
            says = self._says(event.octets, event.direction, note)
        self.write('%s%s %s' % (event.place, event.direction or '?', says))

    def _says(self, octets, direction, note=''):
        """What a message says, to the end of its lines."""
        message, paint = message_of(octets), self.paint
        is_marked = message.code == BLOCK and message.fields['status']
        says, *lines = message.lines
        says = paint('mark' if is_marked else 'heard' if direction == '<' else 'sent', says)
        again = paint('dim', '  ' + SENT_AGAIN) if message.is_repeat else ''
        lines = [paint('dim', '  %s: %s' % bit) for bit in message.bits.items()] + [
            words for part, words in zip(message.parts, lines) if self.number in (None, part['input'])]
        return ''.join(line + '\n' for line in [says + again + note, *lines])

    def _empty(self, octets, direction):
        """What a block without entries says, of which these are the first octets: what is above and below its stamp."""
        return _NO_STAMP.split(self._says(octets + bytes(4), direction))

    def takes(self, batch):
        """Whether the lines have a frame each."""
        return batch.is_plain and not batch.others and max(batch.said.times(), default=0) < END_OF_TIME

    def write_all(self, batch):
        """Writes lines that it takes."""
        rows = []
        for number, time, kind, octets, side in zip(batch.said.numbers(), batch.said.times(), batch.said.time_kinds, batch.octets, batch.senders):
            direction = '>' if side == LOG_FROM_CPU else '<'
            if len(octets) < SHORT:
                says = self.short(octets, direction)
            elif octets[0] == BLOCK and not octets[2]:
                says = str(int.from_bytes(octets[4:], 'big')).join(self.empty(octets[:4], direction))
            else:
                says = self._says(octets, direction)
            rows.append('%-6s %s%s %s' % ('%d:' % number, clock_of(time, TIME_KINDS[kind]) + ' ' if kind else '', direction, says))
        self.write(''.join(rows))


def as_json(wanted):
    """Writes an object a line; of entries and items those of an input, if that is not None."""
    def line(name, event, message):
        one = {'file': shown(name), 'line': event.number, 'time': event.time, 'direction': event.direction,
               'octets': event.octets.hex()}
        one.update(zip(('address', 'control'), ('%02X' % octet for octet in event.header)))
        if event.kind == OTHER:
            one['other'] = event.note
        if message is None:
            one['fault'] = fault_in(event)
        else:
            one.update(type=message.code, says=message.lines[0], **message.fields)
            if message.bits:
                one['bits'] = message.bits
            if message.is_repeat:
                one['repeat'] = SENT_AGAIN
            if message.parts:
                one['entries' if message.code == BLOCK else 'items'] = parts_of(message, wanted)
        terminal.print_object(one)
    return line


def as_csv(wanted):
    """Writes a row for each message without entries, and for each entry; those of an input alone, if that is not None."""
    import csv
    rows = csv.writer(sys.stdout, lineterminator='\n')
    rows.writerow(COLUMNS)

    def line(name, event, message):
        head = [shown(name), event.number, '' if event.time is None else event.time, event.direction, event.octets.hex(),
                '' if message is None else message.code, fault_in(event) if message is None else message.lines[0]]
        for part in message and parts_of(message, wanted) or [{}]:
            rows.writerow(head + [part.get(column, '') for column in COLUMNS[len(head):]])
    return line


def others(read, text):
    """Writes the batches that a text takes at once, and yields the events of the others."""
    for batch in read.batches():
        if text.takes(batch):
            text.write_all(batch)
        else:
            yield from read.events_of(batch)


def run(option):
    """Decodes the logs; a damaged line is as a breach."""
    is_text, wanted = not (option.json or option.csv), option.input
    line = Text(sys.stdout.write, terminal.painter(option.color), wanted) if is_text else (as_json if option.json else as_csv)(wanted)
    read = log.Log(option, sys.stdout.flush)
    for event in others(read, line) if is_text and wanted is None else read.events():
        if event.kind in SHOWN:
            message = spoken(event)
            if wanted is None or message and parts_of(message, wanted):
                line(event.file or read.name, event, message)
    is_read = read.summary(says_forms=True)
    return statuses.of_log(is_read and any(read.kinds[kind] for kind in (BAD, DAMAGED, DROPPED)), not is_read)
