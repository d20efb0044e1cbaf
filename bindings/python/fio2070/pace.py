"""How often to poll over a line of a rate."""

import ctypes
from typing import NamedTuple, Optional

from . import _library as c
from . import constants, encode


class Line(NamedTuple):
    """A line that carries `rate` bits in 1,000 scans, with these stop bits or, if there are 0, as a synchronous one. The module begins
    its answer within `answer` scans; `other` bits of other traffic come in a round; `lost` rounds in a row may be lost. At most
    `inputs` inputs are open, with filters of at least `filter`; a block takes `per_block` entries and `waiting` wait. The CPU's clock
    is faster or slower than the module's counter by at most `drift` parts in a million, and a poll up to `jitter` scans late."""
    rate: int
    inputs: int
    filter: int
    stop_bits: int = 0
    answer: int = 0
    other: int = 0
    lost: int = 0
    per_block: int = constants.MOST_ENTRIES
    waiting: int = constants.STANDARD_WAITING
    drift: int = 0
    jitter: int = 0


class Pace(NamedTuple):
    """Polls are sent so many scans apart by the CPU's clock; a round takes `round` scans at most, a transition is in the record `late` scans after its
    own at most, and `load` thousandths of the line's time are taken."""
    scans: int
    round: int
    late: int
    load: int


def plan(line: Line) -> Optional[Pace]:
    """The least pace of a line at which each round ends before the next one and nothing is lost, or None if it has none. Raises
    ValueError if the rate is 0, no inputs or more than 64 may be open, or the drift is above 10,000."""
    encode.check_range(2**32, line.rate, line.answer, line.other)
    encode.check_range(2**16, line.lost, line.waiting, line.drift, line.jitter)
    encode.check_range(2**8, line.per_block, line.inputs, line.filter, line.stop_bits)
    pace = c.CPace()
    planned = c.library.fio2070_plan(ctypes.byref(c.CLine(**line._asdict())), ctypes.byref(pace))
    if planned == constants.NO_LINE:
        raise ValueError('no line')
    return Pace(pace.scans, pace.round, pace.late, pace.load) if planned == constants.PACE_FOUND else None
