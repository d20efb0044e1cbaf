"""The files of one line, such as one of each channel of an analyser, as one log in the order of time (docs/CAPTURES.md, Two
files of one line)."""

import itertools
from collections import deque

import fio2070

from .event import DATE, FRAME, LOSSES, OF_DAY, PART, SINCE_START
from .message import AGAIN, BLOCK, POLL, TYPE_ANSWER
from .output import Refused
from .shift import CLOCKS, FRAMES, MICRO, are_apart, shift_of
from .terminal import shown

DAY = 86_400
# How many lines of a file show how the others of it are written.
SAMPLES = 8
WORDS = {DATE: 'a date', OF_DAY: 'a time of day', SINCE_START: 'seconds'}


def _lines_of(octets, numbers_of):
    """The lines of a text of which a reader says frames or parts of them, and that `numbers_of` has."""
    reader, lines = fio2070.LogReader(), octets.splitlines(keepends=True)
    return [lines[one.line - 1] for one in reader.read(octets) + reader.end() if one.kind in (FRAME, PART) and numbers_of(one.line - 1)]


def samples_of(beginnings):
    """Of each file, by how it begins, the lines that say messages if the lines of all files are read in turn, as polls do above their
    answers; none of a file that shows a form by itself."""
    texts, count, found = [one.splitlines() for one in beginnings], len(beginnings), []
    for place, one in enumerate(beginnings):
        # The file is above the others, or below them.
        turns = () if _lines_of(one, lambda _: True) else ([place, *others], [*others, place]) if (others := [
            other for other in range(count) if other != place]) else ()
        ways = [(b''.join(line + b'\n' for row in itertools.zip_longest(*(texts[index] for index in turn), fillvalue=b'') for line in row),
                 turn.index(place)) for turn in turns]
        lines = (_lines_of(text, lambda number, first=first: number % count == first) for text, first in ways)
        found.append(b''.join(next(filter(None, lines), [])[:SAMPLES]))
    return found


class File:
    """The events of a file, each with a time that is not before the one above: a line without a time, or with an earlier one, has
    that of the line above; a time of day that is earlier by more than half a day is of the next day."""

    def __init__(self, name, events):
        self.name, self.events, self.held = name, events, deque()
        self.kind = self.head = self.first = self.last = None
        self.days, self.direction, self.is_of_day, self.shift = 0, '', False, 0    # the shift is in seconds
        for event in events:
            self.held.append(event)
            if event.kind == FRAME:
                if event.time is None:
                    raise Refused('%s line %d: --merge needs a time at the first frame of a file' % (shown(name), event.number))
                self.kind, self.last = event.time_kind, event.time
                break

    def beginning(self):
        """The same file up to its first frames, so many."""
        count = sum(event.kind == FRAME for event in self.held)
        for event in self.events if count < FRAMES else ():
            self.held.append(event)
            count += event.kind == FRAME
            if count == FRAMES:
                break
        return File(self.name, iter(tuple(self.held)))

    def begin(self, is_of_day):
        """Goes to the first event; `is_of_day` says that dates do not count."""
        self.is_of_day = is_of_day
        self.first = self.last = self._time(self.last) if self.kind else 0
        self.next()

    def _time(self, time):
        time = round(time + self.shift, 6) if self.shift else time
        return time % DAY if self.is_of_day else time

    def next(self):
        """Goes to the next event; `head` is None at the end."""
        self.head = self.held.popleft() if self.held else next(self.events, None)
        if self.head is None:
            return
        self.direction = self.head.direction or self.direction
        if self.head.time is not None:
            time = self._time(self.head.time) + DAY * self.days
            if self.is_of_day and time < self.last - DAY / 2:
                self.days, time = self.days + 1, time + DAY
            self.last = max(self.last, time)


class Merge:
    """Files as one log. Of events with equal times, an answer to the command above comes first, else a command. If the clocks of two
    files differ, the times of the `shifted` one, of answers, are taken as later or earlier; or the log has a `sign`."""

    def __init__(self, files, may_shift=True):
        self.files, self.command = files, None     # the latest command, until it is answered
        self.sign, self.shifted = '', None
        kinds = {one.kind for one in files if one.kind}
        if SINCE_START in kinds and len(kinds) > 1:
            raise Refused('the files have different times: ' + ', '.join('%s %s' % (shown(one.name), WORDS[one.kind]) for one in files if one.kind))
        if may_shift and len(files) == 2:
            self._shift()
        for one in files:
            one.begin(OF_DAY in kinds)

    def _shift(self):
        """Shifts the file of answers, if the other one is of commands, and the clocks differ."""
        beginnings = [one.beginning() for one in self.files]
        of_answers = [{event.octets[0] >= TYPE_ANSWER for event in one.held if event.kind == FRAME} for one in self.files]
        if of_answers not in ([{False}, {True}], [{True}, {False}]):
            return
        order = list(Merge(beginnings, False).frames())
        if not are_apart(order):
            return
        shift = shift_of(order)
        if shift is None:
            self.sign = CLOCKS
            return
        self.shifted = self.files[of_answers.index({True})]
        self.shifted.shift = shift / MICRO

    def __iter__(self):
        return (event for _, event in self._in_order())

    def frames(self):
        """The time of each frame, in microseconds, and its octets, in order."""
        return ((round(time * MICRO), event.octets) for time, event in self._in_order() if event.kind == FRAME)

    def _in_order(self):
        """The time of each event, and the event."""
        left = [one for one in self.files if one.head]
        while left:
            first = min(one.last for one in left)
            one = self._next([one for one in left if one.last == first])
            event = one.head._replace(file=one.name)
            if event.kind == FRAME:
                self.command = None if event.direction == '<' else event.octets
            yield one.last, event
            one.next()
            if one.head is None:
                left.remove(one)

    def _next(self, equal):
        """The file of which the next event is, of those with equal times."""
        others = [one for one in equal if one.head.kind != FRAME and one.head.kind not in LOSSES]
        if others or len(equal) == 1:
            return (others or equal)[0]
        commands = [one for one in equal if one.direction != '<']
        answers = [one for one in equal if one.direction == '<']
        is_answered = self.command and answers and _is_answer(self.command, answers[0].head, commands and commands[0].head.octets)
        return (answers if is_answered or not commands else commands)[0]

    @property
    def is_apart(self):
        """Whether a file ends before another begins."""
        timed = [one for one in self.files if one.kind]
        return len(timed) > 1 and max(one.first for one in timed) > min(one.last for one in timed)


def _is_answer(command, event, below):
    """Whether an event may be the answer to a command below which another follows: a block that is sent again is to the last poll
    for it."""
    octets = event.octets
    if event.kind != FRAME or octets[0] != command[0] + TYPE_ANSWER:
        return event.kind != FRAME
    is_again = octets[0] == BLOCK and octets[-5] & AGAIN and below == command
    return not is_again and (command[0] != POLL or octets[1] == command[1])
