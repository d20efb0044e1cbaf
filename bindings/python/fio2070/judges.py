"""The judges: of a link, by its frames and where they were logged; and of a log, by what a reader finds in it. And the signs that a
log is not the log of one link in order."""

import ctypes
import re
from typing import Any, Dict, List, Tuple

from . import _library as c
from . import constants
from .encode import Octets, check_range, octets_of
from .log_batches import MOST_FRAMES, LogBatch
from .records import Breach, ContentBreach, Outcome

_PLACES = {'auto': constants.LOG_TAKEN_AUTO, 'cpu': constants.LOG_TAKEN_AT_CPU, 'module': constants.LOG_TAKEN_AT_MODULE,
           'bus': constants.LOG_TAKEN_ON_BUS}
# Who sent a frame, as its line says: as in `Verdict.said`.
_SIDES = {'': constants.LOG_NO_SIDE, '>': constants.LOG_FROM_CPU, '<': constants.LOG_FROM_MODULE}
_SIGNS = {constants.LOG_SIGN_NONE: '', constants.LOG_SIGN_TWICE: 'twice', constants.LOG_SIGN_BOTH_ENDS: 'both ends',
          constants.LOG_SIGN_REVERSED: 'reversed', constants.LOG_SIGN_TWO_LINKS: 'two links',
          constants.LOG_SIGN_EMPTY_LEFT_OUT: 'empty blocks left out'}

# The octets of an outcome, of which the first is its kind; and the kinds of frames that are not kept.
_OUTCOME, _NOT_KEPT = ctypes.sizeof(c.CJudgeOutcome), re.compile(b'[^\0]')


def check_limits(per_block: int, waiting: int) -> None:
    """Raises ValueError if a module has no such limits."""
    if not (1 <= per_block <= 255 and 1 <= waiting <= c.MOST_WAITING):
        raise ValueError('per_block is 1 to 255, waiting 1 to 8,192')


def _side(said: str) -> int:
    """The number of who sent a frame, as its line says."""
    if said not in _SIDES:
        raise ValueError("who sent a frame is '>', '<' or empty")
    return _SIDES[said]


def breach_of(found: Any) -> Breach:
    """The breach of a rule of transcripts in a struct of the library."""
    return Breach(found.rule, bool(found.has_due), found.due, found.got)


def content_breach_of(found: Any) -> ContentBreach:
    """The breach of a rule on content in a struct of the library."""
    return ContentBreach(found.rule, None if found.input == constants.NO_INPUT else found.input, found.items)


def _outcome(found: Any) -> Outcome:
    """What a struct of the library says of a frame."""
    return Outcome(found.kind, found.why, breach_of(found) if found.kind == constants.OUTCOME_BROKEN else None,
                   content_breach_of(found) if found.kind == constants.OUTCOME_BROKEN_CONTENT else None)


class LinkJudge:
    """The judge of a link: both checkers of a log that begins anywhere, in which lines may be lost, of a module with these limits,
    which may be restarted and whose counter may be loaded. With `begun` the log begins with the start of both ends."""

    def __init__(self, per_block: int = c.MOST_ENTRIES, waiting: int = c.STANDARD_WAITING, begun: bool = False) -> None:
        """The module's blocks have at most `per_block` entries, 1 to 255; `waiting` is 1 to 8,192."""
        check_limits(per_block, waiting)
        self._judge, self._found = c.CJudge(), c.CJudgeOutcome()
        start = c.library.fio2070_judge_start_begun if begun else c.library.fio2070_judge_start_anywhere
        start(self._judge, c.CLimits(waiting, per_block, 0))

    def __repr__(self) -> str:
        return '<LinkJudge>'

    def lose(self) -> None:
        """Lines of the log are lost here, such as a damaged frame, or a part of it ends and another begins."""
        c.library.fio2070_judge_lose(self._judge)

    def sent(self, octets: Octets, at: int = constants.AT_CPU) -> Outcome:
        """What a frame is that the CPU sent, logged there."""
        octets = octets_of(octets)
        check_range(3, at)
        c.library.fio2070_judge_sent(self._judge, at, octets, len(octets), self._found)
        return _outcome(self._found)

    def heard(self, octets: Octets) -> Outcome:
        """What a frame is that the module sent."""
        octets = octets_of(octets)
        c.library.fio2070_judge_heard(self._judge, octets, len(octets), self._found)
        return _outcome(self._found)


class LogJudge:
    """The judge of a log: it says what each frame is that a reader finds in it, of a module with these limits, by what the log says
    of the lines between the frames too. Give it the frames and the lines in the order of the log."""

    def __init__(self, per_block: int = c.MOST_ENTRIES, waiting: int = c.STANDARD_WAITING, place: str = 'auto', begun: bool = False,
                 late_answers: bool = False, never_loads: bool = False) -> None:
        """`per_block` and `waiting` are as for `LinkJudge`. `place` says where the log was taken: 'cpu', 'module' or 'bus'; 'auto'
        finds it by the directions that the lines say. With `begun` the log begins with the start of both ends: more is found then.
        With `late_answers` its CPU waits for each answer only until a deadline, and late answers are left out; a log
        can't be both. With `never_loads` its CPU never loads the counter: down to a load in the log no lost line is
        taken for one, and more is found."""
        check_limits(per_block, waiting)
        if place not in _PLACES:
            raise ValueError('the place is auto, cpu, module or bus')
        if begun and late_answers:
            raise ValueError('of a log that begins with both ends late answers are not left out')
        begins = constants.LOG_BEGINS_WITH_ENDS if begun else \
            constants.LOG_LEAVES_OUT_LATE if late_answers else constants.LOG_BEGINS_ANYWHERE
        self._judge, self._found = c.CLogJudge(), c.CJudgeOutcome()
        self._outcomes: Any = None      # of a batch
        self._kinds: Any = None
        c.library.fio2070_log_judge_start(self._judge, c.CLimits(waiting, per_block, 0), _PLACES[place],
                                          begins + constants.LOG_NEVER_LOADS * never_loads)

    def __getstate__(self) -> Dict[str, Any]:
        """What is copied: not the outcomes of a batch."""
        return {**vars(self), '_outcomes': None, '_kinds': None}

    def __repr__(self) -> str:
        return '<LogJudge>'

    def lose(self) -> None:
        """A line may have held a frame, such as a damaged one; or below a frame another part of the log begins."""
        c.library.fio2070_log_judge_lose(self._judge)

    def possible(self) -> None:
        """A line says a message which nothing confirms: below a frame, or if the log begins with both ends, it is as for `lose`."""
        c.library.fio2070_log_judge_possible(self._judge)

    def miss(self) -> None:
        """A line without octets speaks of loss: nobody is accused of what a frame explains that is missing here."""
        c.library.fio2070_log_judge_miss(self._judge)

    def frame(self, octets: Octets, from_cpu: bool, said: str = '') -> Outcome:
        """What a frame is that the CPU sent, or the module. `said` is who sent it as its line says, as in `Verdict.said`: '>' the
        CPU, '<' the module, else empty."""
        octets = octets_of(octets)
        c.library.fio2070_log_judge_frame(self._judge, bool(from_cpu), _side(said), octets, len(octets), self._found)
        return _outcome(self._found)

    def batch(self, batch: LogBatch, as_said: bool = False) -> List[Tuple[int, Outcome]]:
        """Takes all lines of a batch, in order, and returns what is said of the frames that are not kept: the index of each in the
        batch, and its outcome. A line is taken by its kind and its reason: frames; a possible message as by `possible`; a damaged
        line, and a heading below a frame, as by `lose`; a remark of loss as by `miss`. Who sent a frame is found by its type; `as_said` by its line, if
        that says it, as in a transcript that is read by order."""
        if self._outcomes is None:
            self._outcomes = (c.CJudgeOutcome * MOST_FRAMES)()
            self._kinds = memoryview(self._outcomes).cast('B')
        count = c.library.fio2070_log_judge_batch(self._judge, as_said, batch._batch, self._outcomes)
        kinds = bytes(self._kinds[:_OUTCOME * count:_OUTCOME])
        return [(one.start(), _outcome(self._outcomes[one.start()])) for one in _NOT_KEPT.finditer(kinds)]


class LogSigns:
    """Counts of the frames of a log, which tell whether it looks like another one than the log of one link in order. Give it each
    frame, in the order of the log. They do not change what a judge says of a frame."""

    def __init__(self) -> None:
        self._signs = c.CLogSigns()
        c.library.fio2070_log_signs_start(self._signs)

    def __repr__(self) -> str:
        return '<LogSigns %s>' % (self.sign or 'none')

    def frame(self, octets: Octets, from_cpu: bool, said: str = '') -> None:
        """Takes a frame that the CPU sent, or the module. `said` is as for `LogJudge.frame`."""
        octets = octets_of(octets)
        c.library.fio2070_log_signs_frame(self._signs, bool(from_cpu), _side(said), octets, len(octets))

    def batch(self, batch: LogBatch, as_said: bool = False) -> None:
        """Takes the frames of a batch, in order. Who sent them is found as by `LogJudge.batch`."""
        c.library.fio2070_log_signs_batch(self._signs, as_said, batch._batch)

    @property
    def sign(self) -> str:
        """What kind of log it looks like by the frames down to here: 'twice' each frame is in it twice, 'both ends' the logs of both
        ends are merged, 'reversed' the last line is first, 'two links' it has two links; else it is empty."""
        return _SIGNS[c.library.fio2070_log_signs_sign(self._signs)]
