"""Lines of a log, batch by batch: what the library says of them (fio2070.LogBatch), which its judge, its counts and its signs take at
once. An event is made of a line only where it is named or written."""

import functools
import re
from bisect import bisect_right
from collections import Counter
from itertools import accumulate, chain, repeat

import fio2070
from fio2070.constants import LOG_BLANK, LOG_BROKEN, LOG_DAMAGED, LOG_FROM_CPU, LOG_FROM_MODULE, LOG_MORE, LOG_PART, LOG_PASSED_OVER
from fio2070.constants import LOG_POSSIBLE, LOG_SAYS, TYPE_ANSWER, TYPE_POLL

from .event import BAD, BELOW, BLANK, DAMAGED, DROPPED, FRAME, PART, PASSED, POSSIBLE, REMARKS, Line, seconds_of
from .log_words import REASONS
from .sizes import note_of

# The most lines of a batch that is made of events, and the most octets of its frames.
MOST_LINES, MOST_OCTETS = 4096, 1 << 16
# Who sent a frame, by its type, and as it is shown.
_WAYS = {LOG_FROM_CPU: '>', LOG_FROM_MODULE: '<'}
_BY_TYPE = bytes(LOG_FROM_MODULE if code >= TYPE_ANSWER else LOG_FROM_CPU for code in range(256))
# The kinds of events as the library names them; any other one is passed over.
_KINDS = {**{kind: kind for kind in (FRAME, BLANK, PART, POSSIBLE, DAMAGED)}, BAD: FRAME, DROPPED: DAMAGED, BELOW: DAMAGED}
# The lines that give no frame, but for blank ones and parts of frames; and the reasons of lines with octets that are in no frame, beside
# what the lines give.
_OTHERS = re.compile(b'[%c%c%c]' % (LOG_POSSIBLE, LOG_DAMAGED, LOG_PASSED_OVER))
_DROPPED = re.compile(b'[%c%c]' % (LOG_MORE, LOG_BROKEN))
_DROPPED_WORDS = 'more', 'broken'
_POLL = bytes([TYPE_POLL])


class Batch:
    """Lines of a log, one below the other. `said` is what the library says of them, `made` are events that take the place of what it
    says, each in a list, by the index of their line; `raw_of` gives a line by its number. If `as_said`, the lines say themselves who
    sent a frame. `others` are the events that are no frames, but for blank lines and parts of frames, each with the index of its line."""

    def __init__(self, said, as_said=False, made=None, raw_of=None):
        self.said, self.kinds, self.as_said, self._made, self._raw_of = said, said.kinds, as_said, made or {}, raw_of
        # Whether each line gives one frame, as the library says it.
        self.is_plain = not made and self.kinds.count(LOG_SAYS) == len(self.kinds) == said.frame_count
        lines = {found.start() for found in _OTHERS.finditer(self.kinds)} | {found.start() for found in _DROPPED.finditer(said.reasons)}
        self.others = [(line, event) for line in sorted(lines) for event in self.of_line(line) if event.kind not in (FRAME, PART)]

    # ---- Frames, by their index

    @functools.cached_property
    def octets(self):
        """The octets of each frame."""
        return self.said.frames()

    @functools.cached_property
    def _ends(self):
        """How many frames there are down to each line."""
        return list(accumulate(self.said.frame_counts()))

    def line_of(self, frame):
        """The index of the line that gives a frame."""
        return frame if self.is_plain else bisect_right(self._ends, frame)

    @property
    def first_with_frames(self):
        """The index of the first line that gives a frame; how many lines there are if none does."""
        return 0 if self.is_plain else bisect_right(self._ends, 0)

    def frames_above(self, line):
        """How many frames there are above a line."""
        return line if self.is_plain else self._ends[line - 1] if line else 0

    def event(self, frame):
        """The event of a frame."""
        line = self.line_of(frame)
        return [event for event in self.of_line(line) if event.kind in (FRAME, BAD)][frame - self.frames_above(line)]

    @functools.cached_property
    def senders(self):
        """Who sent each frame: by its type or, in a transcript, as its line says."""
        due = self.said.types().translate(_BY_TYPE)
        return bytes(side or sent for side, sent in zip(self._sides(), due)) if self.as_said else due

    def _sides(self):
        """Who sent each frame, as its line says."""
        return chain.from_iterable(map(repeat, self.said.sides, self.said.frame_counts()))

    @property
    def balance(self):
        """Of how many more frames the line says another sender than of how many that of their type."""
        due = self.said.types().translate(_BY_TYPE)
        return sum(1 if side != sent else -1 for side, sent in zip(self._sides(), due) if side)

    def has_poll(self, first, last):
        """Whether one of these frames is a poll that was sent."""
        return any(octets[:1] == _POLL and len(octets) == 2 and sender == LOG_FROM_CPU
                   for octets, sender in zip(self.octets[first:last], self.senders[first:last]))

    def above(self, line, event):
        """How many frames there are above an event of a line that is no frame."""
        return self.frames_above(line + (event.kind == BELOW))

    @property
    def count(self):
        """How many frames there are."""
        return self.said.frame_count

    def steps(self):
        """Each frame as its index and None, and each other event with None in place of the index, in order."""
        frame = 0
        for line, event in self.others:
            yield from zip(range(frame, self.above(line, event)), repeat(None))
            yield None, event
            frame = self.above(line, event)
        yield from zip(range(frame, self.said.frame_count), repeat(None))

    def addresses(self):
        """The address of each frame; empty if there is none before it."""
        headers = [header[:1] for header in self.said.headers()]
        return headers if self.is_plain else list(chain.from_iterable(map(repeat, headers, self.said.frame_counts())))

    # ---- Lines, by their index

    def lines_of_frames(self):
        """The lines that give frames."""
        return range(len(self.kinds)) if self.is_plain else [line for line, kind in enumerate(self.kinds) if kind == LOG_SAYS]

    def parts(self, masks):
        """For each mask, as fio2070.LogBatch.parts has them, a batch, until the next one."""
        for said, mask in zip(self.said.parts(masks), masks):
            made = {line: self._made[line] for line, how in enumerate(mask) if how} if self._made else {}
            for line in filter(lambda line: mask[line] == 2, made):
                made[line] = [made[line][0]._replace(kind=DAMAGED, octets=b'', note=REASONS['no message'])]
            yield Batch(said, self.as_said, made, self._raw_of)

    def frame_in(self, part, frame):
        """The index of a frame here that is one of a part."""
        line = part.line_of(frame)
        return self.frames_above(line) + frame - part.frames_above(line)

    def of_line(self, line):
        """The events of a line: what of it is in no frame, and one for each frame; if both, the place below these too."""
        if line in self._made:
            return self._made[line]
        verdict = self.said.told(line)
        event = Line(verdict.line, verdict.kind, self._raw_of(verdict.line), time=seconds_of(verdict.time), said=verdict.said,
                     header=verdict.header, time_kind=verdict.time_kind)
        is_dropped, note = verdict.reason in _DROPPED_WORDS, REASONS.get(verdict.reason, verdict.reason)
        if verdict.foreign and verdict.kind == PASSED:
            note = note_of(verdict.foreign)
        frames = range(self.frames_above(line), self.frames_above(line + 1))
        dropped = [event._replace(kind=DROPPED, note=note)] * is_dropped
        if verdict.kind not in (FRAME, PART):
            return dropped or [event._replace(note=note)]
        if not frames:
            return dropped + [event]
        said = [event._replace(octets=self.octets[frame], direction=_WAYS[self.senders[frame]]) for frame in frames]
        if len(said) > 1:
            begins = accumulate((len(one.octets) for one in said), initial=1)
            said = [one._replace(message=place, octet=octet) for place, (one, octet) in enumerate(zip(said, begins), 1)]
        return dropped + said + [event._replace(kind=BELOW)] * is_dropped

    def numbered(self, first=0):
        """The events of the lines from this one on, each with the index of its line."""
        return ((line, event) for line in range(first, len(self.kinds)) for event in self.of_line(line))

    def events(self):
        """The events of all lines."""
        return [event for _, event in self.numbered()]

    def kinds_of_events(self):
        """How many events of each kind there are."""
        bad = sum(event.kind == BAD for events in self._made.values() for event in events)
        kinds = Counter({FRAME: self.count - bad, BAD: bad, BLANK: self.kinds.count(LOG_BLANK), PART: self.kinds.count(LOG_PART)})
        kinds.update(event.kind for _, event in self.others)
        return kinds


def _verdict_of(event):
    """What the library would say of an event."""
    kind = _KINDS.get(event.kind, PASSED)
    return fio2070.Verdict(event.number, kind, REMARKS.get(event.note, '') if event.kind == PASSED else '',
                           (event.octets,) if kind == FRAME else (), (), None if event.time is None else round(1e6 * event.time),
                           event.said, event.header, time_kind='' if event.time is None else event.time_kind)


def made_of(events, as_said=False):
    """Batches of events."""
    part, octets = [], 0
    for event in events:
        octets += len(event.octets)
        if len(part) == MOST_LINES or octets > MOST_OCTETS:
            yield batch_of(part, as_said)
            part, octets = [], len(event.octets)
        part.append(event)
    if part:
        yield batch_of(part, as_said)


def batch_of(events, as_said=False):
    """A batch of events."""
    return Batch(fio2070.LogBatch([_verdict_of(event) for event in events]), as_said, {line: [event] for line, event in enumerate(events)})
