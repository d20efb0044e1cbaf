"""What is counted of a log: by libfio2070, and beside that how long it is, what is damaged, and a sample of the response times. And
what of a log is not judged or not counted, and why."""

from array import array
from collections import Counter

import fio2070
from fio2070.constants import LOG_SAYS

from .event import BAD, LOSSES, seconds_of

# How many response times are kept for the median and the 99th percentile: beyond, every second one, and so on.
MOST_TIMES = 1 << 16
# What the library counts: numbers, and tables.
NUMBERS, TABLES = ('frames', 'polls', 'repeats', 'unanswered', 'marks', 'entries', 'restarts'), ('types', 'inputs', 'fills')


class Sample:
    """Numbers of which about as many are kept, evenly spread; the greatest is exact."""

    def __init__(self):
        self.kept, self.every, self.count, self.most = array('Q'), 1, 0, None

    def add(self, numbers):
        """Takes an array of numbers."""
        while numbers:
            first = -self.count % self.every
            part = numbers[:first + self.every * (MOST_TIMES - len(self.kept)) + 1]
            self.kept += part[first::self.every]
            self.count, self.most = self.count + len(part), max(max(part), self.most or 0)
            numbers = numbers[len(part):]
            self._thin()

    def _thin(self):
        while len(self.kept) > MOST_TIMES:
            self.kept, self.every = self.kept[::2], self.every * 2

    def __add__(self, other):
        both = Sample()
        both.count, both.every = self.count + other.count, max(self.every, other.every)
        both.most = max((one.most for one in (self, other) if one.count), default=None)
        for one in (self, other):
            both.kept += one.kept[::both.every // one.every]
        both._thin()
        return both

    def at(self, part):
        """The number below which this part of all lies; None if there is none."""
        return placed(Counter(self.kept), part)


def placed(counts, part):
    """The number below which this part of all lies, of numbers with how often each is there; None if there is none."""
    place = min(int(part * sum(counts.values())), sum(counts.values()) - 1)
    for number, count in sorted(counts.items()):
        place -= count
        if place < 0:
            return number
    return None


def in_words(name):
    """Returns the name of a number as a text has it."""
    return name.replace('_', ' ')


def _timed(said):
    """The first line of a batch and the last that give frames and have a time; None if there is none."""
    timed, kinds = said.time_kinds, said.kinds
    lines = range(len(kinds)) if any(timed) else ()
    return [next((line for line in part if timed[line] and kinds[line] == LOG_SAYS), None) for part in (lines, reversed(lines))]


class Counts(fio2070.LogCounts):
    """Counts the frames of a log. `a + b` is what two logs, or two parts of a log, count."""

    def __init__(self):
        super().__init__()
        self.damaged, self.responses = 0, Sample()
        self.first = self.last = None       # the times of the first frame and of the last

    def __add__(self, other):
        both, ours, theirs = Counts(), self._counts, other._counts
        for name in NUMBERS:
            setattr(both._counts, name, getattr(ours, name) + getattr(theirs, name))
        for name in TABLES:
            getattr(both._counts, name)[:] = [count + more for count, more in zip(getattr(ours, name), getattr(theirs, name))]
        # A poll at the end of the first has no answer; the first 177 of the second may be the first to say a restart.
        both._counts.unanswered += self.waits
        both._counts.restarts += self.reset is False and other.first_reset is True
        both._counts.waits, both._counts.has_reset = theirs.waits, ours.has_reset or theirs.has_reset
        both._counts.first_reset, both._counts.reset = (ours if ours.has_reset else theirs).first_reset, (theirs if theirs.has_reset else ours).reset
        both.damaged, both.responses = self.damaged + other.damaged, self.responses + other.responses
        times = [time for one in (self, other) for time in (one.first, one.last) if time is not None]
        both.first, both.last = min(times, default=None), max(times, default=None)
        return both

    def take(self, batch):
        """Counts the frames of a batch; at a line that may have held one it is not known whether the last poll was answered."""
        kinds = batch.kinds_of_events()
        self.damaged += sum(kinds[kind] for kind in (BAD, *LOSSES))
        self.responses.add(self.batch(batch.said))
        first, last = _timed(batch.said)
        if first is not None:
            self.first, self.last = seconds_of(batch.said.told(first).time) if self.first is None else self.first, seconds_of(batch.said.told(last).time)

    def unjudged(self):
        """What is missing by what the module says, by its reason."""
        return Counter(gap_marks=self.marks, restarts=self.restarts)

    def in_short(self, is_over=True):
        """The numbers of a summary; while more may come, the last poll still waits for its answer."""
        lost = self.unanswered + (is_over and self.waits)
        return {'frames': self.frames, 'polls': self.polls, 'repeats': self.repeats, 'answers_lost': lost, 'gap_marks': self.marks}

    @property
    def seconds(self):
        """How long the log is; None without times."""
        return None if self.first is None or self.last <= self.first else self.last - self.first


# ---- What is not judged

# By reason: the words of one, and of several.
UNJUDGED = {
    'damaged_lines': ('damaged line', 'damaged lines'),
    'lines_with_dropped_octets': ('line with octets that are in no frame', 'lines with octets that are in no frame'),
    'possible_lines': ('line that may be a message and has no form', 'lines that may be a message and have no form'),
    'skipped_lines': ('skipped line', 'skipped lines'),
    'frames_of_others': ('frame of another address', 'frames of other addresses'),
    'losses_of_sync': ('loss of sync', 'losses of sync'),
    'frames_at_losses_of_sync': ('frame from a loss of sync to the next poll', 'frames from a loss of sync to the next poll'),
    'frames_above_a_command': ('frame above the first command', 'frames above the first command'),
    'frames_above_a_poll': ('frame above the first poll', 'frames above the first poll'),
    'frames_below_loads': ('frame whose stamp a load of the counter may explain', 'frames whose stamps a load of the counter may explain'),
    'frames_below_late_answers': ('frame that a late answer above may explain', 'frames that late answers above may explain'),
    'frames_not_at_the_cpu': ('frame that the CPU may not have heard so', 'frames that the CPU may not have heard so'),
    'frames_of_another_kind': ('frame of a log that is not one link in order', 'frames of a log that is not one link in order'),
    'frames_of_one_direction': ('frame of a log of one direction', 'frames of a log of one direction'),
    'excepted_breaches': ('breach of a rule that is left out', 'breaches of rules that are left out'),
    'late_answers': ('late answer', 'late answers'),
    'gap_marks': ('gap mark, above which transitions are lost', 'gap marks, above which transitions are lost'),
    'restarts': ('restart of the module', 'restarts of the module'),
}
# What is of lines, and so is not counted either.
OF_LINES = ('damaged_lines', 'lines_with_dropped_octets', 'possible_lines', 'skipped_lines', 'frames_of_others', 'gap_marks', 'restarts')
# How many reasons of lines that are skipped are named.
MOST_REASONS = 3


def unjudged_numbers(missing, names=tuple(UNJUDGED)):
    """Returns each number by its name, those that are 0 too."""
    return {name: missing[name] for name in names}


def reasons_in_words(reasons):
    """Returns the most frequent reasons why lines are skipped; how often, if there are several."""
    return ', '.join('%s %d' % one for one in reasons.most_common(MOST_REASONS)) if len(reasons) > 1 else ''.join(reasons)


def unjudged_words(missing, reasons=Counter(), names=tuple(UNJUDGED)):
    """Returns what is not judged, in words; empty if all is."""
    parts = []
    for name in names:
        count = missing[name]
        if count:
            why = ' (%s)' % reasons_in_words(reasons) if name == 'skipped_lines' and reasons else ''
            parts.append('%d %s%s' % (count, UNJUDGED[name][count > 1], why))
    return ', '.join(parts)
