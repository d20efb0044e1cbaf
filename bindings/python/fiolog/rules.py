"""All rules over a log: what the library's judge says of each frame becomes a breach, a restart of the module, or a count of what
is not judged."""

from collections import Counter
from operator import itemgetter
from typing import NamedTuple

import fio2070
from fio2070.constants import BIT_LOST as LOST, BIT_MORE as MORE, CONTENT_IGNORED
from fio2070.constants import OUTCOME_BROKEN, OUTCOME_BROKEN_CONTENT, OUTCOME_NOT_JUDGED, OUTCOME_RESTARTED
from fio2070.constants import TYPE_ANSWER, TYPE_WATCHDOG, WHY_ABOVE_COMMAND, WHY_LATE, WHY_LATE_ABOVE, WHY_LOAD
from fio2070.constants import WHY_PLACE_LOST, WHY_UNHEARD

from .event import DAMAGED, DROPPED, LOSSES, MISSING, POSSIBLE
from .log_words import BREACHES
from .message import AGAIN, BLOCK, message_of, words_of
from .protocol import ADVANCE, BLOCK_ENTRIES, CONTENT_RULES, INPUTS, RULES, SOURCES, STANDARD_WAITING

# What was due and what came, by rule, if the library says both.
DUE = {'pair': 'an answer %d was due, %d came', 'number': 'block %d was asked for, %d came',
       'advance': 'block %d was due, %d came'}
# Why a frame is not judged, as the library says it and as it is counted (counts.py).
NOT_JUDGED = {WHY_LOAD: 'frames_below_loads', WHY_UNHEARD: 'frames_not_at_the_cpu', WHY_LATE: 'late_answers',
              WHY_LATE_ABOVE: 'frames_below_late_answers', WHY_ABOVE_COMMAND: 'frames_above_a_command',
              WHY_PLACE_LOST: 'frames_at_losses_of_sync'}
# How a line that may have held a frame is counted (counts.py), by its kind.
LOST_LINES = {DROPPED: 'lines_with_dropped_octets', POSSIBLE: 'possible_lines'}
RESTARTED = 'restarted'
# What is said of a frame that shows a restart: by its stamp, or of an answer to a watchdog that was set before.
WENT_BACK = 'the module restarted, or the stamp is wrong: its counter went back'
FORGOTTEN = 'the module restarted, or forgot its watchdog: it says that none was set before'


class Breach(NamedTuple):
    """A breach in a line. Of a rule on content: how many items of the block are recorded above it, its input and the index of
    the entry that breaks the rule, where it has them. `says` is what was due and what came, or what the breach means; `due`
    is what was due and what came, by the library. With RESTARTED in place of a rule it is no breach, and accuses neither end: the module
    restarted above the frame, if that is right."""
    rule: str
    says: str = ''
    due: dict = {}
    items: int = -1
    input: int = -1
    entry: int = -1

    @property
    def is_restart(self):
        """Whether the module restarted."""
        return self.rule == RESTARTED

    @property
    def source(self):
        """The sources of the rule, in short: of its behaviour and, if that is another one, of its layout."""
        behaviour, layout = SOURCES[self.rule]
        return behaviour if behaviour == 'own profile' or layout in behaviour else '%s; layout %s' % (behaviour, layout)

    @property
    def meaning(self):
        """What a line says of it: what was due and what came, or what the breach means, and the sources."""
        return self.says if self.is_restart else '%s (%s)' % (self.says, self.source)

    @property
    def is_step(self):
        """Whether a poll has the next number though the one above has no answer."""
        return self.rule == 'advance' and (self.due['got'] - self.due['due']) % 256 == 1

    @property
    def is_content(self):
        """Whether a rule on content is broken."""
        return self.items >= 0 and not self.is_restart

    def words(self, line):
        """As `fio2070 record` says it."""
        return 'line %d %s' % (line, self.rule if self.is_restart else '%sbreaks %s' % ('input %d ' % self.input if self.input >= 0 else '', self.rule))


class Rules:
    """The library's judge of a log that was taken `at` one of its places, of a module with the standard limits or with these: the
    most entries of a block, and the most that wait. The log may begin anywhere; a `whole` one begins with the start of both ends.
    If `late_answers` are left out, it begins anywhere. With `no_loads` its CPU never loads the counter. Breaches of `excepted` rules are
    left out; so are all of rules on content, if it judges by those of transcripts alone."""

    def __init__(self, at='auto', whole=False, limits=(), excepted=(), late_answers=False, no_loads=False, with_content=True):
        self.judge = fio2070.LogJudge(*limits, place=at, begun=whole and not late_answers, late_answers=late_answers, never_loads=no_loads)
        self.excepted, self.with_content, self.late_answers = frozenset(excepted), with_content, late_answers
        self.limits = tuple(limits) or (BLOCK_ENTRIES, STANDARD_WAITING)
        self._begins_anywhere = late_answers or not whole
        self.unjudged = Counter()   # what is not judged, by its reason
        self.begun_again = 0    # the polls below losses of sync, from which judging begins anew
        self.is_above_polls = False     # whether a breach is above the first poll
        # Whether a poll is above, and a frame; whether the place is lost, up to the next poll; whether it was lost below the last frame.
        self._has_polls = self._has_frames = self._is_lost = self._is_lost_below = False

    def take(self, batch):
        """Takes lines; returns what is said of a frame, a breach or that the module restarted above it, with the index of the frame."""
        told, above = [], 0
        for frame, event, outcome in self._in_order(batch):
            self._pass(batch, above, frame + (event is None))
            above = frame + (event is None)
            found = self._note(*event) if event else self._of_outcome(batch.octets[frame], outcome)
            if found:
                told.append((frame, found))
        self._pass(batch, above, batch.said.frame_count)
        return told

    def _in_order(self, batch):
        """What the judge says of frames that are not kept, and the events at which it may lose its place, with whether their lines are
        judged; each with how many frames are above. A log may begin anywhere: then the first line that is judged has a frame."""
        first = 0 if self._has_frames or not self._begins_anywhere else batch.first_with_frames
        said = next(batch.said.parts([bytes(first) + b'\1' * (len(batch.kinds) - first)])) if first else batch.said
        outcomes = [(frame, None, outcome) for frame, outcome in self.judge.batch(said, batch.as_said)
                    if outcome.kind != OUTCOME_NOT_JUDGED or outcome.why]
        lines = [(batch.above(line, event), (event, line >= first), None) for line, event in batch.others if event.is_loss]
        return sorted(lines + outcomes, key=itemgetter(0)) if lines else outcomes

    def _pass(self, batch, first, last):
        """Goes on below these frames: the place is known from a poll on."""
        self._has_frames |= first < last
        if self._is_lost_below and first < last:
            self.unjudged['losses_of_sync'] += 1
            self._is_lost_below = False
        if (self._is_lost or not self._has_polls) and batch.has_poll(first, last):
            self.begun_again += self._is_lost
            self._is_lost, self._has_polls = False, True

    def _note(self, event, is_judged):
        """Takes a line that may have held a frame, or says that frames may be missing or that another part of the log begins: the place is
        lost to the frames below it, if there are some."""
        if event.kind in LOSSES:
            self.unjudged[LOST_LINES.get(event.kind, 'damaged_lines')] += 1
        is_of_frames = event.kind in LOSSES and (event.kind != POSSIBLE or not self._begins_anywhere)
        if (event.kind in LOSSES or event.note != MISSING) and (self._has_frames or is_judged and is_of_frames) and not self._is_lost:
            self._is_lost = self._is_lost_below = True

    def _lose_place(self):
        """Counts where the place is lost, if it was known."""
        self.unjudged['losses_of_sync'] += not self._is_lost
        self._is_lost = True

    def _of_outcome(self, octets, outcome):
        """What is said of a frame that is not right, or not judged."""
        kind, why, breach, content = outcome
        if kind == OUTCOME_BROKEN_CONTENT:
            return self._told(content_breach(octets, content)) if self.with_content else None
        if kind in (OUTCOME_BROKEN, OUTCOME_RESTARTED) or why == WHY_LOAD:
            self._lose_place()
        if kind == OUTCOME_BROKEN:
            return self._told(transcript_breach(octets, breach))
        if kind == OUTCOME_RESTARTED:
            return Breach(RESTARTED, FORGOTTEN if octets[0] == TYPE_WATCHDOG + TYPE_ANSWER else WENT_BACK, items=0)
        self.unjudged[NOT_JUDGED[why]] += 1
        return None

    def _told(self, found):
        """A breach, unless its rule is left out."""
        if found.rule in self.excepted:
            self.unjudged['excepted_breaches'] += 1
            return None
        self.is_above_polls |= not self._has_polls
        return found

    @property
    def tells_all(self):
        """Whether each breach that it finds is told."""
        return self.with_content and not self.excepted

    @property
    def unjudged_frames(self):
        """How many frames are not judged."""
        return sum(self.unjudged[name] for name in NOT_JUDGED.values())


def transcript_breach(octets, found):
    """A breach of a rule of transcripts, with what was due and what came, or with what the message does."""
    rule, words = RULES[found.rule]
    if found.has_due:
        ahead = ADVANCE['ahead' if (found.got - found.due) % 256 < 128 else 'behind'].format(due=found.due)
        meaning = ': ' + ahead if rule == 'advance' else ''
        return Breach(rule, DUE[rule] % (found.due, found.got) + meaning, {'due': found.due, 'got': found.got})
    if rule == 'readable':
        return Breach(rule, words_of(octets) or 'this line ' + words)
    if rule == 'limits':
        return Breach(rule, limits_words(message_of(octets)))
    key = 'again' if rule == 'sequence' and octets[-5] & AGAIN else rule
    return Breach(rule, BREACHES[key].format(code=octets[0], command=octets[0] - TYPE_ANSWER) if key in BREACHES else 'this line ' + words)


def limits_words(block):
    """What a block does that breaks the rule on limits."""
    absent = [part['input'] for part in block.parts if part['input'] >= INPUTS]
    if absent:
        return BREACHES['absent'].format(input=absent[0])
    return BREACHES['more' if block.fields['status'] & MORE else 'lost'].format(count=len(block.parts))


def content_breach(octets, found):
    """A breach of a rule on content in the words of its rule."""
    rule, words = CONTENT_RULES[found.rule]
    is_entry = found.rule <= CONTENT_IGNORED
    # Entries are the last items of a block; a gap mark is above them.
    entry = found.items - (octets[0] == BLOCK and octets[-5] & LOST != 0) if is_entry else -1
    state = octets[3 + 3 * entry] >> 7 if is_entry else None
    return Breach(rule, words.format(input=found.input, state=state), {}, found.items,
                  -1 if found.input is None else found.input, entry)
