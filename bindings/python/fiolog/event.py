"""Lines of a log as events: what a line is, with its octets, its time and what is said of it."""

import functools
import re
import time
from typing import NamedTuple, Optional

from .log_words import REASONS
from .message import direction_of, words_of
from .terminal import shown

# Kinds of lines as the library names them, and others.
FRAME, POSSIBLE, DAMAGED, PASSED, PART, BLANK = 'frames', 'possible', 'damaged', 'passed over', 'part', 'blank'
BAD, OTHER, DROPPED, BELOW, WAITING = 'bad', 'other', 'dropped', 'below', 'waiting'
# The kinds of lines that may have held a frame, at which judges lose their place, and the kinds that judges get.
LOSSES = DAMAGED, DROPPED, POSSIBLE
JUDGED = FRAME, BAD, *LOSSES
# The notes of skipped lines that judges get too: a frame may be missing here, since the line speaks of loss; or another part of the log
# begins.
MISSING, HEADING = REASONS['loss'], REASONS['heading']
# The octets that are kept of a line, at most.
LONGEST_TEXT = 1 << 16
# What a time counts from, as the library says it: 1970, midnight, or a start that the log does not name.
DATE, OF_DAY, SINCE_START = 'date', 'day', 'start'
# In the order of the library's numbers.
TIME_KINDS = '', DATE, OF_DAY, SINCE_START
# The year 10000, which no time of a log has, in microseconds.
END_OF_TIME = 253_402_300_800_000_000
MICRO = 1_000_000
# A date of 1970 is one without a year.
WITHOUT_YEAR = 365 * 86_400
_COLOURS = re.compile('\x1b\\[[^A-Za-z]*[A-Za-z]')
_MARKS = dict.fromkeys((0, 0xfeff))
_LETTERS = 'ABCDEFGHIJKLMNOPQRSTUVWXYZabcdefghijklmnopqrstuvwxyz'
# What the library calls these.
REMARKS = {MISSING: 'loss', HEADING: 'heading'}


def text_of(line):
    """A line as text, without colours and marks; octets that are no UTF-8 can be written again as they were."""
    text = line[:LONGEST_TEXT].rstrip(b'\r\n').decode('utf-8', 'surrogateescape')
    if text.isprintable():
        return text
    # Each colour ends with a letter, so the search ends at the last letter: beyond it, it would take quadratic time.
    end = max(map(text.rfind, _LETTERS)) + 1
    return (_COLOURS.sub('', text[:end]) + text[end:]).translate(_MARKS)


class Line(NamedTuple):
    """A line of a log, `raw` as it is in the log. `kind` is FRAME for octets that spell a message; BAD for those that are a frame by
    order or by their carrier, and spell none; OTHER for a frame with an address that is not judged; POSSIBLE for a line that no form
    has and that may be a message; DAMAGED for a line that a form has and that gives no frame, or frames that were lost on their way
    here; DROPPED for octets that are in no frame, beside what their line gives, and BELOW for the place below its frames; WAITING for
    a message that may go on in a line that has not come yet; PART for a line of a frame that ends below; BLANK; PASSED for any other.
    `time` is in seconds, which count from what `time_kind` says; `direction` is `>` or `<`, `note` is the reason; `said` is what the log says of the direction, if it does;
    `file` is the name of its file, if it is one of several that are read as one log. Of a line with several messages `message` is
    which one it is, and `octet` which of all their octets is its first, both from 1. `header` is the address that stands before the
    message, with the control octet if there is one; `station` that address as it is shown, if the line has several stations."""
    number: int
    kind: str
    raw: bytes = b''
    octets: bytes = b''
    time: Optional[float] = None
    direction: str = ''
    note: str = ''
    said: str = ''
    file: str = ''
    message: int = 0
    octet: int = 0
    header: bytes = b''
    station: str = ''
    time_kind: str = ''

    @property
    def where(self):
        """Which line it is, and of a line with several messages which message, and where it begins."""
        parts = ('line', self.number), ('message', self.message), ('octet', self.octet), ('address', self.station)
        return ', '.join('%s %s' % part for part in parts if part[1])

    @property
    def head(self):
        """What is written before the number of the line: the name of its file, if several are read as one log."""
        return shown(self.file) + ' ' if self.file else ''

    @property
    def clock(self):
        """The time as it is shown; empty if there is none."""
        return '' if self.time is None else clock_of(round(self.time * MICRO), self.time_kind)

    @property
    def place(self):
        """How what is written of the line begins: with its number, and its time if it has one."""
        return '%s%-6s %s' % (self.head, '%d:' % self.number, self.clock + ' ' if self.time is not None else '')

    @property
    def is_loss(self):
        """Whether judges may lose their place here: a line that may have held a frame, or says that one is missing, or a heading."""
        return self.kind in (BELOW, *LOSSES) or self.kind == PASSED and self.note in REMARKS

    @property
    def words(self):
        """What is said of it with -v: why it gives no frame, or what else it has, and its text."""
        return 'line %d: %s: %s' % (self.number, self.note, self.text[:100])

    @property
    def text(self):
        """The line as text."""
        return text_of(self.raw)


def seconds_of(micro):
    """The seconds of a time in microseconds; None if there is none."""
    return None if micro is None or micro >= END_OF_TIME else micro / MICRO


@functools.lru_cache(maxsize=64)
def _whole(seconds, kind):
    """Whole seconds as they are shown."""
    if kind == SINCE_START:
        return '%d.' % seconds
    date = '' if kind == OF_DAY else '%m-%d ' if seconds < WITHOUT_YEAR else '%Y-%m-%d '
    return time.strftime(date + '%H:%M:%S.', time.gmtime(seconds))


def clock_of(micro, kind):
    """A time in microseconds as it is shown, by what it counts from: with its date in UTC, as a time of the day, or as seconds; with
    microseconds if they are not 0, else with milliseconds."""
    seconds, part = divmod(micro, MICRO)
    return _whole(seconds, kind) + ('%06d' % part if part % 1000 else '%03d' % (part // 1000))


def frame_of(number, octets, **line):
    """The event of a frame, with its direction, and its fault if it spells no message."""
    fault = words_of(octets)
    return Line(number, BAD if fault else FRAME, octets=octets, direction=direction_of(octets), note=fault, **line)
