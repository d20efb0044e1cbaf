"""Summaries of logs, which add: what was counted, which rules were broken, and how often the module restarted. So thousands of logs are read side by side,
on this machine by `fiolog check FILE..`, or on any engine that maps and reduces:

    from fiolog.summary import Summary, summary_of
    total = sum(map(summary_of, paths), Summary())
"""

import os
from collections import Counter, defaultdict

from .answer import Answer
from .counts import Counts
from .log import CHUNK, decoded
from .event import OTHER
from .reader import Reader
from .rules import Rules
from .judgement import Judgement
from .stations import Stations


class Summary:
    """What was counted of logs. `a + b` is the summary of both. If each cut of a log comes after an answered poll, and before a
    poll for a new block, its parts count what the whole log counts. (The rules begin again after a cut, so what only both sides
    show together is not found.)"""

    def __init__(self):
        self.counts, self.broken, self.first_breach = Counts(), Counter(), None
        self.restarted, self.first_restart = 0, None    # how often, and the first line that shows it
        self.lines, self.unjudged, self.reasons = 0, Counter(), Counter()
        self.verdicts = Counter()   # of how many logs, or stations of a log, little can be judged, by its reason (judgement.py)
        self.answer, self.said = Answer(), []   # what is said of the transitions: the numbers; and of one log all, of each station
        self.partial = 0            # of how many logs, or stations, less than half of the time is in stretches
        self.stations = {}          # of a log of several stations what is said of each, by its address (stations.py)

    @property
    def breaches(self):
        """How often rules are broken."""
        return sum(self.broken.values())

    @property
    def is_lost(self):
        """Whether transitions are lost, or a module was restarted."""
        return self.restarted > 0 or self.answer.is_lost

    @property
    def left_out(self):
        """What is not judged, by its reason."""
        return self.unjudged + self.counts.unjudged()

    def __add__(self, other):
        both = Summary()
        for name, ours in vars(self).items():
            theirs = getattr(other, name)
            if name in ('stations', 'said'):    # an address is that of another station in another log
                continue
            setattr(both, name, ours or theirs if name.startswith('first_') else ours + theirs)
        return both

    def add_breach(self, event, found):
        """Counts a breach or a restart."""
        if found.is_restart:
            self.restarted, self.first_restart = self.restarted + 1, self.first_restart or event.number
            return
        self.broken[found.rule] += 1
        self.first_breach = self.first_breach or (event.number, found.rule, found.says)

    def add_breaches(self, other):
        """Counts what another summary of this log has counted of breaches and restarts."""
        self.broken, self.restarted = self.broken + other.broken, self.restarted + other.restarted
        self.first_breach, self.first_restart = (min(filter(None, (getattr(one, name) for one in (self, other))), default=None)
                                                 for name in ('first_breach', 'first_restart'))


def chunks_of(source):
    """The octets of a path, a file that is open, or an iterator of octets, piece by piece."""
    if isinstance(source, (str, os.PathLike)):
        with open(source, 'rb') as file:
            try:
                yield from chunks_of(file)
            except OSError as fault:
                fault.filename = os.fspath(source)
                raise
    elif hasattr(source, 'read'):
        yield from iter(lambda: source.read(CHUNK), b'')
    else:
        yield from source


def summary_of(source, start_at_poll=False, form='auto', pattern=None, line='', address=None, like=(), **rules):
    """The summary of a log: a path, a file open for reading octets, or an iterator of octets. With `start_at_poll` it begins with the first
    poll; `rules` are what rules.Rules takes, and all else what the reader does."""
    summary, reader, told = Summary(), Reader(form, pattern, line, address, like), defaultdict(Summary)
    stations = Stations(lambda: Judgement(Rules(**rules), is_open=not start_at_poll), summary.counts)
    for batch in reader.read(decoded(iter(chunks_of(source)), not line)):
        batch = stations.opened(batch)
        for _, event, found in stations.take(batch):
            told[event.station, found.is_step].add_breach(event, found)
        summary.counts.take(batch)
    for event, found in stations.end():
        told[event.station, found.is_step].add_breach(event, found)
    summary.said = stations.answers(summary.counts)
    summary.answer = sum((one.answer for one in summary.said), Answer())
    summary.partial = sum(one.answer.is_little for one in summary.said)
    for one in stations.judgements:
        summary.verdicts.update([one.verdict] * bool(one.verdict))
        for station in one.stations if one.is_fit else ():
            for is_step in (False, True)[:1 if one.leaves_out else 2]:
                summary.add_breaches(told[station, is_step])
    summary.lines, summary.reasons, summary.counts, summary.stations = reader.count, reader.reasons, stations.total(summary.counts), stations.rows()
    summary.unjudged = stations.unjudged + Counter(skipped_lines=sum(summary.reasons.values()), frames_of_others=reader.kinds[OTHER])
    return summary
