"""`fiolog live`: decodes, checks and counts a line that talks now, by the rules of `check` and by those on content. It ends with
the line, or at Ctrl-C, and then writes what it counted.

The field line itself is synchronous (SDLC): a serial port reads it by an adapter that gives out octet-stuffed HDLC with
frame check. What a port loses, or hears with a wrong parity or stop bit, is not said by pyserial: the frame check finds it."""

import sys
import time
from collections import Counter

from . import check, judgement, listening, log, options, output, statuses, terminal
from .batch import made_of
from .event import BAD, DAMAGED, FRAME, LOSSES, OTHER, PASSED
from .captures import Writer
from .counts import UNJUDGED, Counts, in_words
from .decode import Text, spoken
from .options import number_in
from .rules import LOST_LINES
from .stations import Stations
from .waiting import Waiting

# Seconds without a frame after which the status line says so.
QUIET = 2.0
# The reasons that are shown for frames that are not judged.
SHOWN = ('frames_above_a_command', 'frames_below_loads', 'late_answers', 'frames_below_late_answers', 'frames_of_one_direction',
         'frames_of_another_kind')
# The counts that the status line shows even if they are 0.
ALWAYS = ('frames', 'polls', 'breaches')


def add_arguments(parser):
    source = parser.add_mutually_exclusive_group(required=True)
    source.add_argument('--exec', metavar='COMMAND', help='a process that writes lines `> HEX` and `< HEX`, or those of another log')
    source.add_argument('--serial', metavar='DEVICE', help='octet-stuffed HDLC with frame check')
    source.add_argument('--udp', type=number_in(0, 65535), metavar='PORT', help='a frame a datagram')
    source.add_argument('--fifo', metavar='FILE', help='a pipe or file with lines of a log')
    options.add(parser, '--address', '--like')
    parser.add_argument('--rate', type=int, default=153600, metavar='BAUD', help='of the serial port (153600)')
    parser.add_argument('--host', default='127.0.0.1', help='the address to hear datagrams at (127.0.0.1)')
    parser.add_argument('--transcript', metavar='FILE', help='write what comes as a transcript')
    parser.add_argument('--pcapng', metavar='FILE', help='write it as pcapng; - for `| wireshark -k -i -`')
    parser.add_argument('--force', action='store_true', help='overwrite files that are there already')
    parser.add_argument('--at', choices=('auto', 'cpu', 'module', 'bus'), default='auto', help='where it is heard')
    options.add(parser, '--whole', '--limits', '--except', '--late-answers', '--no-loads')
    parser.add_argument('--seconds', type=float, metavar='N', help='end after so long')
    options.add(parser, '-v --verbose')
    parser.add_argument('-q', '--quiet', action='store_true', help='do not write the messages')


class Station:
    """What is done with each frame: written, checked, counted, kept."""

    def __init__(self, option, source):
        self.option, self.source, self.counts = option, source, Counts()
        self.broken = {'breaches': 0, 'breaches in content': 0, 'restarted': 0}
        self.steps = Counter()      # of each station how many polls have the next number though the one above has no answer
        self.out = sys.stderr if option.pcapng == '-' else sys.stdout
        self.paint = terminal.painter('auto')
        self.line = Text(self._write, self.paint)
        self.stations = Stations(lambda: judgement.Judgement(check.rules_for(option)), self.counts)
        self.transcript = output.recorded(option.transcript, option.force) if option.transcript else None
        self.capture = None
        if option.pcapng:
            self.file = sys.stdout.buffer if option.pcapng == '-' else output.recorded(option.pcapng, option.force, is_binary=True)
            self.capture = Writer(self.file)
        self.last, self.waiting = time.monotonic(), Waiting()

    def add(self, events):
        """Frames, good or bad; other lines are passed over, and at a damaged one the place is lost."""
        for batch in made_of(events, self.source.reader.as_said):
            told = {}
            for frame, *one in self.stations.take(batch):
                told.setdefault(batch.line_of(frame), []).append(one)
            self.counts.take(batch)
            for line, event in batch.numbered():
                self._add(event, told.get(line, ()))

    def _add(self, event, broken):
        """What is done with a line, and with what is broken there."""
        if event.kind not in (FRAME, BAD, OTHER):
            if event.kind in (PASSED, *LOSSES) and self.option.verbose:
                self._say(event.words)
            return
        if not self.option.quiet and not self.waiting.was_shown(event):
            self.line('-', event, spoken(event))
        if event.kind == OTHER:
            return
        self.last = time.monotonic()
        self._name(broken)
        if self.transcript:
            self.transcript.write('%s %s\n' % (event.direction, event.octets.hex()))
        if self.capture:
            self.capture.add(event.time, event.direction, event.octets)

    def _say(self, words):
        self.out.flush()
        terminal.say(words)

    def _write(self, text):
        terminal.status.clear()
        self.out.write(text)

    def _name(self, broken):
        """Says what frames break, and where the module restarted."""
        for event, found in broken:
            self.broken['restarted' if found.is_restart else 'breaches in content' if found.is_content else 'breaches'] += 1
            self.steps[event.station] += found.is_step
            self._write('%s: %s: %s\n' % (event.where, self.paint('fault', found.rule), found.meaning))

    def flush(self):
        """Writes out what is held, and the status line on a terminal; and what lines would be that wait, if the log ended now."""
        for event in () if self.option.quiet else self.waiting.due(self.source.reader):
            self.line('-', event, spoken(event))
        self._flush()
        silence = time.monotonic() - self.last
        numbers = self.numbers(silence > QUIET).items()
        state = [one.answer.state for one in self.said() if one.answer.state]
        terminal.status.show(', '.join([*dict.fromkeys(state), *('%s %d' % pair for pair in numbers if pair[1] or pair[0] in ALWAYS)])
                             + (', silent for %d s' % silence if silence > QUIET else ''))

    def _flush(self):
        for one in (self.out, self.transcript, self.capture and self.file):
            if one:
                one.flush()

    def numbers(self, is_over=True):
        """What was counted."""
        kinds = self.source.reader.kinds
        numbers = {in_words(name): number for name, number in self.stations.total(self.counts).in_short(is_over).items()}
        others = {'skipped lines': kinds[PASSED],
                  'wrong frame checks' if self.option.serial else 'damaged lines': kinds[DAMAGED],
                  **{UNJUDGED[LOST_LINES[kind]][1]: kinds[kind] for kind in LOST_LINES}, 'frames of other addresses': kinds[OTHER],
                  **{UNJUDGED[name][1]: self.stations.unjudged[name] for name in SHOWN}, 'datagrams dropped': self.source.dropped}
        broken = {name: count for name, count in self.broken.items() if count or name != 'restarted'}
        return {**numbers, **broken, **{words: count for words, count in others.items() if count}}

    def said(self):
        """What is said of the transitions by now."""
        return self.stations.answers(self.counts)

    def end(self):
        """The answer and the summary; returns the status. What was said of a log that does not look like that of one link is taken back."""
        self.add(self.source.end())
        self._name(self.stations.end())
        said = self.said()
        self._write(''.join(one.line + '\n' for one in said if self.counts.frames))
        self._write(', '.join('%s %d' % pair for pair in self.numbers().items()) + '\n')
        for address, row in self.stations.rows().items():
            self._write('address %s: %s\n' % (address, check.numbers_words(row)))
        self._flush()
        check.say_excused(self.stations.unjudged['frames_not_at_the_cpu'])
        judgements = self.stations.judgements
        is_little = judgement.say(judgements)
        for words in self.source.reader.sizes():
            terminal.say(words)
        if not self.counts.frames:
            log.say_others(self.source.reader.others)
            terminal.say('no frame came')
        is_fit = any(one.is_fit for one in judgements)
        excused = sum(self.steps[station] for one in judgements if one.leaves_out for station in one.stations)
        return statuses.of_log(is_fit and self.broken['breaches'] - excused + self.broken['breaches in content'],
                               is_little or any(one.answer.is_little for one in said),
                               is_fit and self.broken['restarted'] or any(one.answer.is_lost for one in said))


def run(option):
    """Hears the line until it ends; a line that ends with a fault is as a breach."""
    for name in ('exec', 'serial', 'fifo'):
        given = getattr(option, name)
        if given is not None and not given.strip():
            raise output.Refused('--%s has no name' % name)
    if option.udp is not None and option.address:
        raise output.Refused('--address is of frames of SDLC, and a datagram is a message without one')
    output.refuse_old((option.transcript, option.pcapng), option.force)
    try:
        source = listening.opened(option)
    except ValueError as fault:
        raise OSError(str(fault)) from None
    is_failed = False
    try:
        station, begun = Station(option, source), time.monotonic()
        try:
            for chunk in listening.chunks(source, lambda: option.seconds and time.monotonic() - begun >= option.seconds):
                station.add(source.feed(chunk) if chunk is not None else ())
                station.flush()
        except KeyboardInterrupt:
            pass
        except listening.LineEnded as fault:
            is_failed = True
            terminal.say('the line has ended: %s' % fault)
        status = station.end()
    finally:
        is_failed = source.close() or is_failed
    return statuses.BREACH if is_failed else status
