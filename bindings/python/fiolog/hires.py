"""The transitions as a high-resolution controller event log, which signal performance measures (ATSPM) read: a row for each,
with its time, the signal, code 82 (detector on) or 81 (detector off), and the channel.

The link has no time of day: the first block that the CPU took was made at `--start`, and the module's counter says how much
later or earlier each transition was. Such a log has no row for what is missing, so each gap mark is reported, and each step of the
counter back, after which the times are not known. Of several logs each begins at `--start`, and a last column has its file."""

import argparse

from . import log
from .output import Refused, made
from .protocol import INPUTS
from .terminal import say, shown
from .waveform import Clock, each_once

OFF, ON = 81, 82
HEAD = ['TimeStamp', 'DeviceId', 'EventId', 'Parameter']


def day_and_time(text):
    """A day and time, as `2026-03-01T07:00:00.250`; a zone is not kept, since such logs have local times."""
    import datetime
    try:
        return datetime.datetime.fromisoformat(text).replace(tzinfo=None)
    except ValueError:
        raise argparse.ArgumentTypeError('%r is no day and time such as 2026-03-01T07:00:00.250' % text) from None


def channel_map(text):
    """The channels of inputs: `12:5`, or `0-15:1` for channels 1 to 16, several with commas between them."""
    channels = {}
    for part in text.split(','):
        inputs, colon, channel = part.partition(':')
        first, dash, last = inputs.partition('-')
        numbers = (first, last if dash else first, channel)
        if not colon or not all(word.isascii() and word.isdigit() for word in numbers):
            raise argparse.ArgumentTypeError('%r is no map such as 12:5 or 0-15:1' % part)
        low, high, begin = map(int, numbers)
        if not low <= high < INPUTS or not begin:
            raise argparse.ArgumentTypeError('%r: inputs are 0 to %d, channels begin with 1' % (part, INPUTS - 1))
        channels.update((number, begin + number - low) for number in range(low, high + 1))
    return channels


def add_arguments(parser):
    """The options of such a log."""
    group = parser.add_argument_group('high-resolution events')
    group.add_argument('--hires', metavar='FILE', help='write the transitions as a high-resolution event log (CSV)')
    group.add_argument('--start', type=day_and_time, metavar='TIME', help='when the first block was made, as 2026-03-01T07:00:00')
    group.add_argument('--signal', metavar='ID', help='the signal of the events')
    group.add_argument('--on', type=int, choices=(0, 1), help='the state of an input that is on: the profile does not say it')
    group.add_argument('--channels', type=channel_map, metavar='MAP', default={number: number + 1 for number in range(INPUTS)},
                       help='inputs and channels, as 12:5,0-7:1 (the default is 0-63:1); other inputs are left out')


class Events:
    """Rows of the events of a log, block by block; with the name of its file if there are several."""

    def __init__(self, rows, option, name=''):
        self.option, self.clock, self.first = option, Clock(), None
        self.rows, self.left_out, self.name = rows, set(), name

    def add(self, block):
        """Writes the transitions of a block that the CPU took, if their inputs have channels."""
        is_back, times = self.clock.go_on(block)
        if self.first is None:
            self.first = self.clock.time
        if is_back:
            self.say('the counter went back before %s: times from there on are not known' % self.shown(min(times)))
        if block.is_lost:
            self.say('gap mark: transitions are missing before %s' % self.shown(min(times)))
        for (number, state, _), time in zip(block.entries, times):
            if number in self.option.channels:
                self.rows.writerow([self.shown(time), self.option.signal, ON if state == self.option.on else OFF,
                                    self.option.channels[number], *[shown(self.name)] * bool(self.name)])
            else:
                self.left_out.add(number)

    def say(self, words):
        """Says it of this log."""
        say(shown(self.name) + ' ' * bool(self.name) + words)

    def shown(self, time):
        """The time of day of a time of the counter."""
        import datetime
        try:
            moment = self.option.start + datetime.timedelta(milliseconds=time - self.first)
        except OverflowError:
            raise Refused('--start %s: the log has times before the year 1 or after 9999' % self.option.start) from None
        return moment.isoformat(' ', 'milliseconds')


def write(logs, option):
    """Writes the blocks of each log as they come; says what was left out."""
    import csv
    missing = ['--' + name for name in ('start', 'signal', 'on') if getattr(option, name) is None]
    if missing:
        raise Refused('--hires needs %s too' % ', '.join(missing))
    left_out, has_several = set(), log.has_several(option)
    with made(option.hires) as out:
        rows = csv.writer(out, lineterminator='\n')
        rows.writerow(HEAD + ['File'] * has_several)
        for name, blocks in logs:
            events = Events(rows, option, name)
            for block in each_once(blocks):
                events.add(block)
            left_out |= events.left_out
    if has_several and not option.quiet:
        say('each of the %d logs begins at --start' % len(option.files))
    if left_out:
        say('left out, since --channels has no channel for them: inputs %s' % ', '.join(map(str, sorted(left_out))))
