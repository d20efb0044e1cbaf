"""The reader of logs: the frames of the link in a log of any logger."""

from typing import Iterator, List, NamedTuple

from . import _library as c
from . import constants
from .encode import Octets, octets_of
from .log_batches import LogBatch, Verdict

_FORMS = {'auto': constants.LOG_AUTO, 'frames': constants.LOG_FRAMES, 'transcript': constants.LOG_TRANSCRIPT}
# How many octets the library gets at a time: what a batch leaves of them is copied.
_PIECE = 65536


class ReadAs(NamedTuple):
    """Lines of one form. `front` is the text before the octets of the first line that is read by it, or its end, as octets; `first` the
    number of that line, 0 if none is; `lines` how many are, and `damaged` how many of these give no frame. If `is_echo`, its frames
    repeat those above them, and are no frames of their own."""
    front: bytes
    first: int
    lines: int
    damaged: int
    is_echo: bool


class LogReader:
    """A reader of a log, which takes its octets in pieces of any length."""

    def __init__(self, form: str = 'auto') -> None:
        """`form` is 'auto', by the forms that the log shows (docs/CAPTURES.md); or by order 'frames' or 'transcript', whose lines are
        read as `fio2070 show` and `fio2070 check` read theirs; other than there a line also ends at CR."""
        if form not in _FORMS:
            raise ValueError('the form is auto, frames or transcript')
        self._reader, self._batch = c.CLogReader(), LogBatch()
        c.library.fio2070_log_start(self._reader, _FORMS[form])

    def like(self, samples: Octets) -> int:
        """Learns forms from sample lines, before octets of the log are read. The log is then read by them from its first line on.
        Returns how many forms they show: 0 if they show none, or the lines are read by order."""
        samples = octets_of(samples)
        return int(c.library.fio2070_log_like(self._reader, samples, len(samples)))

    def forms(self) -> List[ReadAs]:
        """By which forms the lines are read that have a verdict, in the order of the forms: a line is read by the first that has it."""
        found = c.CLogFormList()
        c.library.fio2070_log_forms(self._reader, found)
        return [ReadAs(bytes(one.front[:one.front_length]), getattr(one, 'from'), one.lines, one.damaged, bool(one.is_echo))
                for one in found.forms[:found.count]]

    def ended(self) -> 'LogReader':
        """A reader of what was read down to here, as a log that has ended. This one reads on."""
        other = LogReader.__new__(LogReader)
        other._reader, other._batch = type(self._reader).from_buffer_copy(self._reader), LogBatch()
        c.library.fio2070_log_end(other._reader)
        return other

    def batches(self, octets: Octets) -> Iterator[LogBatch]:
        """Takes the next octets of the log, and yields the verdicts that are due, in the order of the lines, as batches. Each batch is
        overwritten by the next one."""
        octets, batch = octets_of(octets), self._batch
        for start in range(0, len(octets), _PIECE):
            piece = octets[start:start + _PIECE]
            while piece:
                piece = piece[c.library.fio2070_log_read(self._reader, piece, len(piece), batch._batch):]
                if batch:
                    yield batch._drop_passed()

    def last_batches(self) -> Iterator[LogBatch]:
        """Ends the log, and yields the verdicts on all lines that had none."""
        c.library.fio2070_log_end(self._reader)
        while True:
            c.library.fio2070_log_read(self._reader, b'', 0, self._batch._batch)
            if not self._batch:
                return
            yield self._batch._drop_passed()

    def read(self, octets: Octets) -> List[Verdict]:
        """Takes the next octets of the log, and returns the verdicts that are due, in the order of the lines. The first ones wait until
        the log shows its forms; a line gets its verdict once it is decided, which can be a line later. After `end`, octets begin a new log of the same form, whose
        lines are counted from 1."""
        return [verdict for batch in self.batches(octets) for verdict in batch.verdicts()]

    def end(self) -> List[Verdict]:
        """Ends the log, and returns the verdicts on all lines that had none."""
        return [verdict for batch in self.last_batches() for verdict in batch.verdicts()]
