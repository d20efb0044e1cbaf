"""What the rules find in a log. No rule is judged of a log that does not look like the log of one link in order, nor of one of one
direction (commands whose answers were not logged, or answers without their commands): what is found in that is held until an answer
shows that the log has both."""

from collections import Counter

import fio2070

from .answer import Answer
from .batch import batch_of
from .event import BAD, FRAME, JUDGED, LOSSES
from .late import ABOVE, is_owed
from .log_words import REASONS, SIDES, SIGNS
from .message import POLL
from .rules import LOST_LINES
from .shift import CLOCKS
from .terminal import say as _say, shown

# Fewer frames do not show that a direction is missing.
LEAST = 4
# The octets of what is held in memory; more are in a temporary file.
MOST_HELD = 1 << 20
COMMANDS, ANSWERS, NOT_WHOLE, UNREAD, SILENT, FEW, NONE = 'commands', 'answers', 'not whole', 'unread', 'silent', 'few', 'none'
ONE_SIDED = COMMANDS, ANSWERS, NOT_WHOLE, UNREAD
# The sign that answers came late, and the rules that such an answer breaks; and that of a log of which rules are judged.
LATE, LATE_RULES, EMPTY = 'late answers', ('pair', 'number'), 'empty blocks left out'
# The verdicts on a log of which no rule is judged.
UNFIT = (*(sign for sign in SIGNS if sign != EMPTY), CLOCKS, *ONE_SIDED)
# The note of a line of no form that has a frame.
UNREAD_FRAME = REASONS['unread frame']
_MERGE = ' (two files of one line: see --merge)'
WORDS = {
    **SIGNS,
    **SIDES,
    COMMANDS: SIDES[COMMANDS] + _MERGE,
    ANSWERS: SIDES[ANSWERS] + _MERGE,
    CLOCKS: 'the clocks of these files differ, and not by one time, so no rule is judged: take both directions with one clock',
    FEW: 'fewer than half of the messages that this log may have were judged: {judged} of {said}',
}
# As a row of a table says it.
IN_SHORT = {**{sign: sign for sign in SIGNS}, COMMANDS: 'the commands alone', ANSWERS: 'the answers alone', NOT_WHOLE: 'no whole answer',
            CLOCKS: 'clocks that differ', UNREAD: 'frames of no form', SILENT: 'no answer came',
            FEW: 'fewer than half judged', NONE: 'no frame'}


def say(judgements):
    """Says of logs why little of them can be judged; returns whether that is so."""
    for words in dict.fromkeys(shown(one.name) + ': ' * bool(one.name) + one.words for one in judgements if one.words):
        _say(words)
    return any(is_little(one.verdict) for one in judgements)


def is_little(verdict, counts_alone=False):
    """Whether little of a log with this verdict could be judged or, if it is counted alone, counted."""
    return verdict not in ('', SILENT, EMPTY, *(LATE, FEW, *ONE_SIDED) * counts_alone)


class Sides:
    """Which directions the frames of a log have."""

    def __init__(self):
        self.commands = self.answers = self.lost = self.unread = 0
        self.polled, self.rises = None, False

    def add(self, event):
        """Takes a frame, or a line that may have held one."""
        if event.kind in LOSSES:
            self.lost += 1
            self.unread += event.note == UNREAD_FRAME
        elif event.direction == '<':
            self.answers += 1
        else:
            self.commands += 1
            if event.kind == FRAME and event.octets[0] == POLL:
                self.rises |= self.polled not in (None, event.octets[1])
                self.polled = event.octets[1]

    def verdict(self):
        """Returns what is missing of a log that is read to its end, a key of WORDS; empty if it has both directions or too few
        frames."""
        if self.commands and self.answers or self.commands + self.answers < LEAST:
            return ''
        if self.unread:
            return UNREAD
        if self.answers:
            return ANSWERS
        return NOT_WHOLE if 2 * self.lost >= self.commands else COMMANDS if self.rises else SILENT


class Held:
    """Breaches and restarts with their events, in order."""

    def __init__(self):
        self.file, self.count = None, 0

    def add(self, one):
        """Keeps one."""
        import pickle
        import tempfile
        self.file = self.file or tempfile.SpooledTemporaryFile(MOST_HELD)
        pickle.dump(one, self.file)
        self.count += 1

    def take(self):
        """Returns all that is kept, and keeps nothing."""
        if not self.count:
            return
        import pickle
        self.file.seek(0)
        count, self.count = self.count, 0
        for _ in range(count):
            yield pickle.load(self.file)
        self.file.seek(0)


class Judgement:
    """What rules find in a log: nothing, if it has one direction alone."""

    def __init__(self, rules, name='', is_open=True, sign=''):
        self.rules, self.name = rules, name     # the name of the log's file, if there are several logs
        self._sign = sign       # what kind of log it is, if that is known above its frames
        self.is_open = is_open      # whether frames are judged from here on
        self.sides, self.held, self._signs = Sides(), Held(), fio2070.LogSigns()
        self.answer, self._stretches = Answer(rules.limits), fio2070.LogStretches()
        self.frames = self.left_out = self.losses = 0
        self.verdict, self.words = '', ''
        self.stations = {''}    # the addresses by which the events of its findings have their station (stations.py)
        self.commands_from = self.answers_from = 0      # the frames of the latest lines from which both directions are known
        self.found = {}     # what is said of the frames of the latest lines
        self._above = []    # the octets of the latest frames above these
        self._is_late = None    # whether all that is found are answers that are surely late; None above the first

    def take(self, batch):
        """Takes lines; returns each breach and restart that is certain now: the frame at which it is, the event, and it."""
        self._note_directions(batch)
        self.frames += batch.count
        self.losses += sum(event.kind in LOSSES for _, event in batch.others)
        self._signs.batch(batch.said, batch.as_said)
        told = []
        self.found = dict(self.rules.take(batch))
        self.answer.take(batch, self._stretches, self._stretches.batch(batch.said, self.rules.judge))
        for frame, found in self.found.items():
            event = batch.event(frame)
            if self._is_late is not False:
                self._is_late = found.rule in LATE_RULES and is_owed(event.octets, self._above + batch.octets[:frame])
            if frame < self.answers_from:
                self.held.add((event, found))
            else:
                told.append((frame, event, found))
        if self.held.count and self.answers_from < batch.said.frame_count:
            told = [(self.answers_from, *one) for one in self.held.take()] + told
        self._above = (self._above + batch.said.last_frames(ABOVE))[-ABOVE:]
        return told

    def _note_directions(self, batch):
        """Notes the directions of frames until both came, and the frame from which each is known."""
        sides, count = self.sides, batch.said.frame_count
        self.commands_from, self.answers_from = (0 if known else count for known in (sides.commands, sides.answers))
        for frame, event in batch.steps() if self.commands_from or self.answers_from else ():
            if event is None or event.kind in LOSSES:
                sides.add(event or batch.event(frame))
            if frame is not None:
                self.commands_from = min(self.commands_from, frame if sides.commands else count)
                self.answers_from = min(self.answers_from, frame if sides.answers else count)
            if sides.answers and sides.commands:
                return

    def named(self, event):
        """An event of the log with the name of its file, if there are several logs."""
        return event._replace(file=self.name) if self.name else event

    def opened(self, batch):
        """The lines, without the frames above the first poll where the log is to begin there."""
        if self.is_open:
            return batch
        events = []
        for event in batch.events():
            self.is_open |= event.kind in JUDGED and event.octets[:1] == bytes([POLL])
            if self.is_open or event.kind not in (FRAME, BAD):
                events.append(event)
            else:
                self.sides.add(event)
                self.left_out += 1
        return batch_of(events, batch.as_said)

    def end(self):
        """Returns the other breaches and restarts, at the end of the log."""
        judged, said = self.frames - self.rules.unjudged_frames - self.rules.begun_again, self.frames + self.losses
        self.verdict = (NONE if not self.frames else '') or self.sign or self.sides.verdict() or (FEW if 2 * judged < said else EMPTY * self.leaves_out)
        self.words = '; '.join(WORDS[one].format(judged=judged, said=said) for one in (self.verdict, EMPTY * (self.leaves_out and self.verdict == FEW)) if one in WORDS)
        # A block that came late is not below the one that was made before it.
        self.answer.end(not (self.sign or self.rules.unjudged['late_answers']), self.is_fit and self.rules.tells_all, self.leaves_out)
        held = self.held.take()
        return held if self.is_fit else ()

    @property
    def is_fit(self):
        """Whether rules are judged of the log, at its end."""
        return self.verdict not in UNFIT

    @property
    def sign(self):
        """What kind of log it looks like by now, a key of SIGNS; empty if it looks like the log of one link in order."""
        return self._sign or self._signs.sign * (not self.leaves_out) or LATE * (self._is_late is True and not self.rules.late_answers)

    @property
    def leaves_out(self):
        """Whether blocks without entries are not in the log: then a poll for the next number below one without an answer breaks no rule."""
        return self._signs.sign == EMPTY

    @property
    def unjudged(self):
        """What is not judged, by its reason."""
        if self.is_fit:
            return self.rules.unjudged + Counter(frames_above_a_poll=self.left_out)
        reason = 'frames_of_one_direction' if self.verdict in ONE_SIDED else 'frames_of_another_kind'
        return Counter({name: self.rules.unjudged[name] for name in ('damaged_lines', *LOST_LINES.values())},
                       **{reason: self.frames + self.left_out})
