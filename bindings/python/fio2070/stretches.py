"""Stretches of a log: where it records each transition once, and where not."""

import ctypes
from typing import Any, Dict, List, NamedTuple, Optional

from . import _library as c
from .judges import LogJudge
from .log_batches import MOST_FRAMES, LogBatch

# Why a stretch ends, in the order of the library's numbers.
CAUSES = '', 'missing', 'passed over', 'unknown', 'restart', 'disbelieved'


class Seam(NamedTuple):
    """A place of a log above a block answer: where a stretch ends, or transitions are lost. `frame` is the index of the block among the
    frames of its batch. `why` is 'missing' (blocks are not in the log: at least `missing`, if the CPU passes over no number),
    'passed over' (the module never got the polls of the numbers between), 'unknown', 'restart' (of the module), 'disbelieved' (the block
    breaks a rule on what entries say), or empty: transitions are lost alone. If `is_lost`, they are lost above the block, since the
    module's buffer overflowed. `pause` is how long the poll above came after the poll above that, in microseconds, if both have a time."""
    frame: int
    why: str
    is_lost: bool
    missing: int
    pause: Optional[int]


def _number(name: str, words: str) -> Any:
    """A number of the library's struct."""
    return property(lambda self: int(getattr(self._stretches, name)), doc=words)


class LogStretches:
    """What a log records of the transitions of one module. A stretch is a piece of that in which each transition of the module's list is
    there once and in order."""

    blocks: int = _number('blocks', 'The block answers; one that is sent again as it was is not counted.')
    transitions: int = _number('transitions', 'Their entries.')
    lost: int = _number('lost', 'The places above which transitions are lost.')
    missing: int = _number('missing', 'The places where blocks are not in the log.')
    missing_blocks: int = _number('missing_blocks', 'How many blocks these are, at least one at each place.')
    passed_over: int = _number('passed_over', 'The places where the module did not get the polls of the numbers between.')
    unknown: int = _number('unknown', 'The places of which the log does not show whether transitions follow.')
    restarts: int = _number('restarts', 'The restarts.')
    disbelieved: int = _number('disbelieved', 'The blocks that are not to be believed.')
    timed: int = _number('timed', 'The microseconds between neighbouring blocks with times that rise.')
    timed_whole: int = _number('timed_whole', 'Those of them within stretches.')
    stamped: int = _number('stamped', 'The milliseconds between neighbouring blocks by their stamps, unless these go back.')
    stamped_whole: int = _number('stamped_whole', 'Those of them within stretches.')
    loads: int = _number('loads', 'The loads of the counter.')
    longest_pause: int = _number('longest_pause', 'The longest time between two neighbouring polls, in microseconds.')

    def __init__(self) -> None:
        self._stretches = c.CLogStretches()
        self._seams: Any = None     # of a batch
        c.library.fio2070_log_stretches_start(self._stretches)

    def __getstate__(self) -> Dict[str, Any]:
        """What is copied: not the places of a batch."""
        return {**vars(self), '_seams': None}

    def __repr__(self) -> str:
        return '<LogStretches blocks=%d>' % self.blocks

    def batch(self, batch: LogBatch, judge: LogJudge) -> List[Seam]:
        """Takes the frames of a batch that this judge has just judged, and returns the places where a stretch ends or transitions are
        lost, in order."""
        if judge._outcomes is None:
            raise ValueError('the judge has judged no batch')
        if self._seams is None:
            self._seams = (c.CLogSeam * MOST_FRAMES)()
        count = c.library.fio2070_log_stretches_batch(self._stretches, batch._batch, judge._outcomes, self._seams)
        return [Seam(one.frame, CAUSES[one.cause], bool(one.is_lost), one.missing, one.pause if one.has_pause else None)
                for one in self._seams[:count]]
