"""`fiolog record`: what the CPU learned: the record of the proved CPU's end, which heard the answers of the log, each breach of a
rule, and where the module restarted; of each file and each station by itself."""

import sys
from collections import defaultdict
from itertools import chain, groupby
from operator import itemgetter

import fio2070
from fio2070.constants import BIT_LOST as LOST

from . import hires, log, options, statuses, terminal
from .check import judged
from .convert import block_of
from .counts import unjudged_words
from .judgement import Held, say
from .message import BLOCK, POLL, spells
from .output import Refused
from .terminal import shown
from .waveform import draw

_POLL, _BLOCK = bytes([POLL]), bytes([BLOCK])
# So many frames show what kind of log it is.
ENOUGH = 64
# The count and the status of a block that says nothing, and its length.
_EMPTY, EMPTY = bytes(2), 8
COLUMNS = ['line', 'time', 'input', 'state', 'stamp', 'wide']
# The sign of a log whose frames are of several modules: together they are no record.
MIXED = 'two links'


def add_arguments(parser):
    options.add_reading(parser)
    options.add_place(parser)
    options.add(parser, '-r --recursive')
    form = parser.add_mutually_exclusive_group()
    form.add_argument('--text', action='store_true', help='as `fio2070 record` writes it, to the first breach or restart')
    form.add_argument('--json', action='store_true', help='one object a line: an item, with `breaks` a breach, or with `outcome` a restart')
    form.add_argument('--csv', action='store_true', help='a table; an item, a breach or a restart a row, with its file and address')
    form.add_argument('--vcd', action='store_true', help='a VCD file; breaches and restarts on standard error')
    hires.add_arguments(parser)


class Hearing:
    """The CPU's end, which is given the answers. At first, and below a damaged line, a poll and a block may have any number."""

    def __init__(self):
        self.number, self.is_lost = None, True      # the number of the block that is due

    def note(self, asked):
        """Takes a poll for a block. If it is for another one than the proved CPU's end asks for, returns what that asks for. Where the
        poll is for the block before, its answer was not heard, or is not taken again."""
        due, was_lost, self.is_lost = self.number, self.is_lost, False
        if due is None or (due - asked) % 256 >= 2:
            self.number = asked
        return None if was_lost or self.number == due else due

    def hear(self, octets):
        """What a block adds to the record, by the proved CPU's end; None if it is not taken."""
        number = octets[1]
        if self.number is None or self.is_lost and number != (self.number - 1) % 256:
            self.number = number
        if number != self.number:
            return None
        self.number = (number + 1) % 256
        if not octets[2] and not octets[-5] & LOST:
            return ()
        poller = fio2070.Poller(number)
        poller.hear(octets)
        return poller.record


class Record:
    """The record of each log, or of each station of one, as it is read: breaches are counted. It begins anew with each, as text at its
    first command. If it `is_drawn`, it is of one station, and blocks that add nothing are there too."""

    def __init__(self, read, option, is_drawn=False, is_of_one=False):
        self.faults, self.read, self.option = 0, read, option
        self.is_drawn, self.is_of_one = is_drawn, is_of_one

    def _taken(self):
        """What each frame adds to the record or breaks, if it does either: what judges it, its event, the items or None, and the breach or
        restart or None; of all but what judges None at the end of a log."""
        heard, steps = defaultdict(Hearing), []

        def hear(batch, part, judgement, broken):
            station = max(judgement.stations)
            for frame, event, *step in self._of_batch(part, broken, judgement, heard[judgement]):
                event = judgement.named((event or part.event(frame))._replace(station=station))
                steps.append((batch.frame_in(part, frame), judgement, event, *step))
        for batch, broken, judge in judged(self.read, self.option, seen=hear):
            if judge.parts and self.is_of_one:
                raise Refused('%s has the frames of several stations: record each by itself, with --address (%s)'
                              % (shown(self.read.name), ', '.join(judge.rows())))
            for frame, judgement, event, items, found, due in sorted(steps, key=itemgetter(0)):
                self.read.name_passed(batch.line_of(frame))
                if due is None:
                    yield judgement, event, items, found
                else:
                    _say_jump(event, due)
            steps.clear()
            if not batch:
                of_station = {station: one for one in judge.judgements for station in one.stations}
                yield from ((of_station[where.station], judge.named(where), None, found) for _, where, found in broken)
                yield from ((one, None, None, None) for one in judge.judgements)
                heard.clear()

    def _settled(self):
        """The same, but no breach and no restart of a log that does not look like that of one link, and nothing of one that looks like
        several: this is held as long as it does, and what the first frames add until they show it."""
        rows, broken = defaultdict(Held), defaultdict(Held)
        for judgement, event, *row in self._taken():
            kept = rows[judgement]
            if event and (judgement.frames < ENOUGH or judgement.sign == MIXED):
                kept.add((event, *row))
                continue
            if judgement.sign != MIXED:
                yield from (self._told(judgement, *one, broken[judgement]) for one in kept.take())
            if event:
                yield self._told(judgement, event, *row, broken[judgement])
            else:
                yield from (self._told(judgement, *one, broken[judgement]) for one in broken.pop(judgement, Held()).take() if not judgement.sign)
                del rows[judgement]

    def _told(self, judgement, event, items, found, held):
        """What a frame adds or breaks; what it breaks is held as long as the log does not look like that of one link."""
        if found and judgement.sign:
            held.add((event, None, found))
            found = None
        self.faults += found is not None and not found.is_restart
        return judgement, event, items, found

    def _of_batch(self, batch, broken, judgement, hearing):
        """What each frame adds or breaks: its index, the event of a breach that was held, the items of a block that is taken, the breach, and
        of a poll for another block than the one that was due which one that was."""
        first, frames, told = judgement.commands_from if self.option.text else 0, batch.octets, {}
        for frame, where, found in broken:
            told.setdefault(frame, []).append((where, found))
        for frame, event in batch.steps():
            if event:
                hearing.is_lost |= event.is_loss
                continue
            octets, items, found = frames[frame], None, None
            for where, one in told.get(frame, ()) if told else ():
                if one is judgement.found.get(frame):
                    found = one
                else:
                    yield frame, where, None, one, None
            if octets[:1] == _BLOCK:
                items = hearing.hear(octets) if frame >= first and (octets[2:4] == _EMPTY and len(octets) == EMPTY or spells(octets)) else None
            elif octets[:1] == _POLL and len(octets) == 2:
                due = hearing.note(octets[1])
                if due is not None and frame >= judgement.answers_from and frame not in judgement.found and not judgement.sign:
                    yield frame, None, None, None, due
            if items or found or items is not None and self.is_drawn:
                yield frame, None, items, found, None

    def logs(self):
        """The blocks of each log that were taken, as they are drawn, with the name of its file if there are several; breaches and
        restarts are said."""
        for judgement, part in groupby(self._settled(), itemgetter(0)):
            yield judgement.name, self._blocks(part)

    def _blocks(self, part):
        for _, event, items, found in part:
            if found:
                terminal.say(event.head + found.words(event.number))
            if items is not None:
                yield block_of(event.octets, found.entry if found else -1)

    def parts(self):
        """The items, the breaches and the restarts with their lines: a breach of a rule on content below the items that are above
        it, a restart above the items of its block."""
        for _, event, items, found in self._settled():
            items = items or ()
            place = found.items if found and found.items >= 0 else len(items)
            yield from ((event, item, None) for item in items[:place])
            if found:
                yield event, None, found
            yield from ((event, item, None) for item in items[place:])


def _say_jump(event, due):
    """Says that a poll is for another block than the one that was due."""
    terminal.say('%s%s: block %d was due by what was heard, the CPU asked for %d' % (event.head, event.where, due, event.octets[1]))


def _station(event):
    """How a row of the table begins that is of one of several stations."""
    return 'address %s ' % event.station if event.station else ''


def _address(event):
    """The address of a frame, if there is one before its message."""
    return event.header[:1].hex().upper()


def item_words(item):
    """An item as `fio2070 record` writes it."""
    return 'gap' if item.gap else 'input %d state %d stamp %d wide %d' % item[1:]


def write(record):
    """A table: the items with their lines, and the breaches and restarts in between."""
    for event, item, found in record.parts():
        if found:
            print(event.head + _station(event) + found.words(event.number))
        else:
            print(event.place + _station(event) + item_words(item))


def write_json(record):
    """An object a line."""
    for event, item, found in record.parts():
        if found and found.is_restart:
            fields = {'outcome': found.rule}
        elif found:
            fields = {name: number for name, number in (('input', found.input), ('entry', found.entry)) if number >= 0}
            fields['breaks'] = found.rule
        else:
            fields = {'gap': True} if item.gap else {name: getattr(item, name) for name in COLUMNS[2:]}
        place = {name: words for name, words in (('file', shown(event.file)), ('address', _address(event))) if words}
        terminal.print_object({**place, 'line': event.number, 'time': event.time, **fields})


def write_csv(record):
    """A row for each item, each breach and each restart; a gap mark has `gap` as its mark, a breach its rule, a restart `restarted`. And
    one for each file that cannot be read, with its fault."""
    import csv
    rows = csv.writer(sys.stdout, lineterminator='\n')
    rows.writerow(['file', 'address', *COLUMNS, 'mark', 'fault'])
    for event, item, found in record.parts():
        head = [shown(event.file or record.read.name), _address(event), event.number, '' if event.time is None else event.time]
        if found:
            rows.writerow([*head, found.input if found.is_content else '', '', '', '', found.rule, ''])
        elif item.gap:
            rows.writerow([*head, '', '', '', '', 'gap', ''])
        else:
            rows.writerow([*head, *(getattr(item, name) for name in COLUMNS[2:]), '', ''])
    for name, words in record.read.faults.items():
        rows.writerow([shown(name), *[''] * (len(COLUMNS) + 2), words])


def write_text(record):
    """What `fio2070 record` writes: the items above the first breach of a rule on content, then that breach; where one of the
    rules of `check` is broken, the first such breach alone. A restart is as a breach of a rule on content."""
    import shutil
    import tempfile
    count, broken, verdict = 0, '', ''
    with tempfile.TemporaryFile('w+') as items:
        for event, item, found in record.parts():
            words = found.words(event.number) + '\n' if found else ''
            if found and not (found.is_content or found.is_restart):
                verdict = verdict or words
            broken = broken or words
            if not broken:
                count += 1
                items.write(item_words(item) + '\n')
        if verdict:
            sys.stdout.write(verdict)
            return
        print('record %d' % count)
        items.seek(0)
        shutil.copyfileobj(items, sys.stdout)
    sys.stdout.write(broken)


def run(option):
    """Writes the record."""
    is_drawn = bool(option.hires or option.vcd)
    read = log.Log(option, sys.stdout.flush, goes_on=log.has_several(option) and not is_drawn)
    record, form = Record(read, option, is_drawn, is_drawn or option.text), '--text' if option.text else '--vcd' if option.vcd else ''
    if form and read.has_several:
        raise Refused('%s has the record of one log: name one file, or --merge the files of one line' % form)
    if option.hires:
        hires.write(record.logs(), option)
    elif option.vcd:
        draw(chain.from_iterable(blocks for _, blocks in record.logs()), sys.stdout)
    else:
        (write_text if option.text else write_json if option.json else write_csv if option.csv else write)(record)
    is_read = read.summary()
    if read.unjudged and not option.quiet:
        terminal.say('not judged: ' + unjudged_words(read.unjudged))
    for name in read.empty():
        terminal.say('%s: no frame' % shown(name))
    is_little = say(read.judgements) or not is_read or any(read.empty())
    return statuses.FAILED if read.faults else statuses.of_log(record.faults, is_little)
