"""What is counted of the frames of a log."""

import array
import collections
import ctypes
from typing import Any, Counter, Dict, Optional

from . import _library as c
from .encode import Octets, check_range, octets_of
from .log_batches import MOST_FRAMES, LogBatch


def _number(name: str, words: str) -> Any:
    """A number of the library's struct."""
    return property(lambda self: int(getattr(self._counts, name)), doc=words)


def _table(name: str, words: str) -> Any:
    """A table of the library's struct."""
    return property(lambda self: _counted(getattr(self._counts, name)), doc=words)


def _known(name: str, known: str, kind: Any, words: str) -> Any:
    """A number of the library's struct that is known if another one is not 0."""
    return property(lambda self: kind(getattr(self._counts, name)) if getattr(self._counts, known) else None, doc=words)


def _counted(table: Any) -> 'Counter[int]':
    """What of a table of counts is not 0, by its place."""
    return collections.Counter({place: number for place, number in enumerate(table) if number})


class LogCounts:
    """What is counted of the frames of a log. Give it each frame, and each place where one may be lost, in the order of the log."""

    frames: int = _number('frames', 'The frames.')
    polls: int = _number('polls', 'The polls.')
    repeats: int = _number('repeats', 'The polls with the number of the poll above.')
    unanswered: int = _number('unanswered', 'The polls below which a command comes before a block answer.')
    marks: int = _number('marks', 'The gap marks.')
    entries: int = _number('entries', 'The entries of blocks, each block counted once.')
    restarts: int = _number('restarts', 'How often the module says that it was reset, and did not say so before.')
    types: 'Counter[int]' = _table('types', 'The messages of each type.')
    inputs: 'Counter[int]' = _table('inputs', 'The entries of each input.')
    fills: 'Counter[int]' = _table('fills', 'The blocks with each number of entries.')

    command: Optional[int] = _known('command', 'has_command', int,
                                    'The type of the latest command, until it is answered; None if there is none.')
    polled: Optional[int] = _known('polled', 'has_polled', int, 'The number of the latest poll; None above it.')
    first_reset: Optional[bool] = _known('first_reset', 'has_reset', bool,
                                         'Whether the first status answer says that the module was reset; None above it.')
    reset: Optional[bool] = _known('reset', 'has_reset', bool, 'Whether the latest one says so.')

    def __init__(self) -> None:
        self._counts, self._taken = c.CLogCounts(), ctypes.c_uint64()
        self._times: Any = None     # of the answers of a batch
        c.library.fio2070_log_counts_start(self._counts)

    def __getstate__(self) -> Dict[str, Any]:
        """What is copied: not the times of a batch."""
        return {**vars(self), '_times': None}

    def __repr__(self) -> str:
        return '<LogCounts frames=%d>' % self.frames

    @property
    def waits(self) -> bool:
        """Whether the latest poll is not answered yet: a poll at the end of a log is not counted as unanswered."""
        return bool(self._counts.waits)

    def lose(self) -> None:
        """A frame may be lost here: whether the latest poll and command were answered is not known."""
        c.library.fio2070_log_counts_lose(self._counts)

    def frame(self, octets: Octets, time: Optional[int] = None) -> Optional[int]:
        """Counts a frame, by its time in microseconds, 0 to 2^64 - 1, if it has one. Returns how long the module took for its answer, in
        microseconds, if that is known: of the answer that the latest command waits for, whose time is not before the command's."""
        octets, sent_at = octets_of(octets), 0 if time is None else time
        check_range(1 << 64, sent_at)
        is_known = c.library.fio2070_log_counts_frame(self._counts, time is not None, sent_at, octets, len(octets), self._taken)
        return int(self._taken.value) if is_known else None

    def batch(self, batch: LogBatch) -> 'array.array[int]':
        """Counts all frames of a batch, in order; possible and damaged lines, headings and lines that speak of loss are taken as by `lose`.
        Returns how long the module took for each answer of which that is known."""
        if self._times is None:
            self._times = (ctypes.c_uint64 * MOST_FRAMES)()
        count = c.library.fio2070_log_counts_batch(self._counts, batch._batch, self._times)
        return array.array('Q', memoryview(self._times).cast('B')[:8 * count].tobytes())
