"""The field I/O transition link of the Model 2070, by the proved library libfio2070.

Ranges, errors and sources are those of include/fio2070.h. A number out of its range raises ValueError; what is no
number, no octets (a number is none) or no list of the right kind raises TypeError.

    >>> encode.poll(5).hex()
    '3605'
    >>> decode_answer(bytes.fromhex('b605018c03e700000003e8')).entries
    [Entry(input=12, state=1, stamp=999)]
    >>> Wire().read(wire_frame(encode.poll(5)))
    [WireHeard(kind='message', address=20, control=131, message=b'6\\x05')]
"""

import ctypes
import operator
from typing import Any, List, NamedTuple, Optional, Sequence, Tuple, Type

from . import _library as c
from . import constants, encode, judges
from .counts import LogCounts
from .encode import Octets
from .judges import LinkJudge, LogJudge, LogSigns
from .log_batches import LogBatch, Verdict
from .logs import LogReader, ReadAs
from .pace import Line, Pace, plan
from .records import Answer, Breach, Command, ConfigurationItem, ContentBreach, Entry, Fault, Outcome, RecordItem
from .stretches import LogStretches, Seam
from .wire import Wire, WireBits, WireHeard, wire_check, wire_frame

__all__ = ['Answer', 'AnswerRefused', 'Breach', 'Checker', 'Command', 'ConfigurationItem', 'ContentBreach',
           'ContentChecker', 'Counter', 'Entry', 'Fault', 'Filters', 'Heard', 'Line', 'LinkJudge', 'LogBatch', 'LogCounts',
           'LogJudge', 'LogReader', 'LogSigns', 'LogStretches', 'Module', 'Octets', 'Outcome', 'Pace', 'Poller', 'ReadAs', 'RecordItem',
           'Seam', 'Verdict', 'Wire', 'WireBits', 'WireHeard', 'constants', 'content_rule_text', 'decode_answer', 'decode_command', 'encode',
           'plan', 'rule_text', 'show', 'tester', 'version', 'widen', 'wire_check', 'wire_frame']

__version__ = '%d.%d.%d' % (constants.VERSION // 10000, constants.VERSION // 100 % 100, constants.VERSION % 100)

# Room for what `show` writes of most frames.
_SHORT_TEXT = ctypes.c_uint8 * 512


def _text(name: str, of: Any) -> str:
    text = (ctypes.c_uint8 * c.LONGEST_TEXT)()
    count = getattr(c.library, 'fio2070_' + name)(of, text, len(text))
    return bytes(text[:count]).decode('ascii')


def _fault(fault: c.CFault) -> Fault:
    return Fault(fault.kind, fault.code, fault.needed, fault.got, _text('fault_text', fault))


def rule_text(rule: int) -> str:
    """The name of a rule, such as 'advance'; empty if there is no such rule."""
    encode.check_range(256, rule)
    return _text('rule_text', rule)


def content_rule_text(rule: int) -> str:
    """The name of a rule on content, such as 'order'; empty if there is no such rule."""
    encode.check_range(256, rule)
    return _text('content_rule_text', rule)


def version() -> int:
    """The version of the library that is loaded, as constants.VERSION has that of this package."""
    return int(c.library.fio2070_version())


def _read(name: str, into: Any, octets: bytes) -> Any:
    """What a call of the library reads into a struct or a number. Raises Fault for octets that are no such message."""
    fault = getattr(c.library, 'fio2070_' + name)(octets, len(octets), into)
    if fault.kind != 0:
        raise _fault(fault)
    return into


def _elements(name: str, struct: Any, octets: bytes) -> Any:
    """The elements of a message that a call of the library copies; none of another message."""
    elements = (struct * c.MOST_ENTRIES)()
    count = getattr(c.library, 'fio2070_' + name)(octets, len(octets), elements, len(elements))
    return elements[:0 if count == c.NO_MESSAGE else count]


def decode_command(octets: Octets) -> Command:
    """The command that the octets spell. Raises Fault if they spell none."""
    octets = encode.octets_of(octets)
    read = _read('decode_command', c.CCommand(), octets)
    return Command(read.code, read.clear, read.block, read.timeout, read.load, bytes(read.levels),
                   bytes(read.controls), octets[1:1 + read.body],
                   [ConfigurationItem(one.input, bool(one.ignore), one.leading, one.trailing)
                    for one in _elements('command_items', c.CItem, octets)])


def show(octets: Octets) -> str:
    """What `fio2070 show` writes of a frame, or the words of its fault and a line feed."""
    octets, text = encode.octets_of(octets), _SHORT_TEXT()
    count = c.library.fio2070_show(octets, len(octets), text, len(text))
    if count >= len(text):
        text = (ctypes.c_uint8 * (count + 1))()
        count = c.library.fio2070_show(octets, len(octets), text, len(text))
    return ctypes.string_at(text, count).decode('ascii')


def decode_answer(octets: Octets) -> Answer:
    """The answer that the octets spell. Raises Fault if they spell none."""
    octets = encode.octets_of(octets)
    read = _read('decode_answer', c.CAnswer(), octets)
    return Answer(read.code, read.flags, read.receive_errors, read.transmit_errors, read.status, read.block,
                  read.stamp, read.inputs, octets[1:1 + read.body],
                  [Entry(one.input, one.state, one.stamp) for one in _elements('block_entries', c.CEntry, octets)])


def _shown(one: object, **values: object) -> str:
    """The text of an object: its class and these values."""
    return '<%s%s>' % (type(one).__name__, ''.join(' %s=%s' % pair for pair in values.items()))


def widen(answer_stamp: int, stamp: int) -> int:
    """The time in milliseconds, modulo 2^32, of an entry with this stamp in an answer with that one."""
    encode.check_range(2**32, answer_stamp)
    encode.check_range(2**16, stamp)
    return int(c.library.fio2070_widen(answer_stamp, stamp))


class Heard(NamedTuple):
    """What a poller heard: 'taken', 'unreadable', 'other' or 'stale', and the numbers that it has; those of a block, taken or
    stale, are its number and its stamp, the module's millisecond counter when it was made."""
    kind: str
    entries: int = 0
    status: int = 0
    code: int = 0
    number: int = 0
    stamp: int = 0
    fault: Optional[Fault] = None

    @property
    def text(self) -> str:
        """In the words of `fio2070 simulate`."""
        kind = ('taken', 'unreadable', 'other', 'stale').index(self.kind)
        heard = c.CHeard(kind=kind, code=self.code, number=self.number, status=self.status, entries=self.entries)
        if self.fault:
            heard.fault = c.CFault(self.fault.kind, self.fault.code, self.fault.needed, got=self.fault.got)
        return _text('heard_text', heard)


class Poller:
    """The CPU's end, with its record."""

    def __init__(self, number: int) -> None:
        """`number` is that of the first block to ask for, 0 to 255. A CPU that goes on with the number that it kept loses
        nothing and records nothing twice; one that starts again with that of the module's last poll records its block again."""
        encode.check_range(256, number)
        self._poller = c.CPoller()
        c.library.fio2070_poller_start(self._poller, number)
        self._items = (c.CRecordItem * c.MOST_RECORD_ITEMS)()
        self.record: List[RecordItem] = []

    def __repr__(self) -> str:
        return _shown(self, number=self.number, items=len(self.record))

    @property
    def number(self) -> int:
        """The number of the block that the next poll asks for."""
        return int(self._poller.number)

    def poll(self) -> bytes:
        """The octets of a poll with the present number."""
        return encode.poll(self.number)

    def hear(self, octets: Octets) -> Heard:
        """Takes a block with the present number whole; anything else is reported and changes nothing."""
        octets = encode.octets_of(octets)
        heard = c.library.fio2070_poller_hear(self._poller, octets, len(octets), self._items, len(self._items))
        if heard.kind == 0:
            self.record.extend(RecordItem(bool(one.gap), one.input, one.state, one.stamp, one.wide)
                               for one in self._items[:heard.items])
            return Heard('taken', entries=heard.entries, status=heard.status, number=heard.number, stamp=heard.stamp)
        if heard.kind == 1:
            return Heard('unreadable', fault=_fault(heard.fault))
        if heard.kind == 2:
            return Heard('other', code=heard.code)
        return Heard('stale', number=heard.number, stamp=heard.stamp)


class Checker:
    """A checker of what the CPU's end sends and hears, of a module with these limits. Below a breach it goes on as one that
    starts at the next poll. With `anywhere` it is for a log that begins anywhere: what is heard above the first frame that is
    sent is not judged."""

    def __init__(self, per_block: int = c.MOST_ENTRIES, waiting: int = c.STANDARD_WAITING, anywhere: bool = False) -> None:
        """The module's blocks have at most `per_block` entries, 1 to 255; `waiting` is 1 to 8,192."""
        judges.check_limits(per_block, waiting)
        self._checker, self._breach = c.CChecker(), c.CBreach()
        start = c.library.fio2070_checker_start_anywhere if anywhere else c.library.fio2070_checker_start_within
        start(self._checker, c.CLimits(waiting, per_block, 0))

    def __repr__(self) -> str:
        kept = self._checker
        return _shown(self, polled=kept.polled if kept.has_polled else None,
                      awaited=kept.awaited if kept.has_awaited else None, skips=bool(kept.skips))

    def sent(self, octets: Octets) -> Optional[Breach]:
        """The breach of a frame that the CPU sent; None if it keeps the rules."""
        return self._breach_by(c.library.fio2070_checker_sent, octets)

    def heard(self, octets: Octets) -> Optional[Breach]:
        """The breach of a frame that the CPU heard; None if it keeps the rules."""
        return self._breach_by(c.library.fio2070_checker_heard, octets)

    def _breach_by(self, take: Any, octets: Octets) -> Optional[Breach]:
        octets, found = encode.octets_of(octets), self._breach
        rule = take(self._checker, octets, len(octets), found)
        return judges.breach_of(found) if rule else None


class ContentChecker:
    """A checker of the rules on content: it judges answers, and the entries of each block that a poller takes whose first
    number is that of the first poll sent. The log may begin anywhere: what is heard above the first frame that is sent is
    not judged. With `begun` it begins with the start of both ends, and more is found."""

    def __init__(self, begun: bool = False) -> None:
        self._content, self._breach = c.CContentChecker(), c.CContentBreach()
        start = c.library.fio2070_content_start_begun if begun else c.library.fio2070_content_start
        start(self._content)

    def __repr__(self) -> str:
        return _shown(self)

    def sent(self, octets: Octets) -> None:
        """Takes a frame that the CPU sent."""
        octets = encode.octets_of(octets)
        c.library.fio2070_content_sent(self._content, octets, len(octets))

    def heard(self, octets: Octets) -> Optional[ContentBreach]:
        """The first rule that a frame breaks that the CPU heard; None if it breaks none. The whole frame is taken."""
        octets, found = encode.octets_of(octets), self._breach
        rule = c.library.fio2070_content_heard(self._content, octets, len(octets), found)
        return judges.content_breach_of(found) if rule else None


class Counter(c.Kept):
    """The millisecond counter."""
    _name, _struct = 'counter', c.CCounter

    def __repr__(self) -> str:
        return _shown(self, now=self.now())

    def tick(self) -> None:
        """One step, from 4,294,967,295 to 0."""
        self._call('tick')

    def ask_load(self, number: int) -> None:
        """The next line sync loads this number."""
        encode.check_range(2**32, number)
        self._call('ask_load', number)

    def line_sync(self) -> None:
        """LINESYNC goes from 0 to 1."""
        self._call('line_sync')

    def now(self) -> int:
        """The milliseconds counted, modulo 2^32."""
        return int(self._call('now'))


class Filters(c.Kept):
    """The filters of the 64 inputs. Bit i of a word is input i."""
    _name, _struct = 'filters', c.CFilters

    filtered: int = c.number('filtered', 'The filtered states, also of ignored inputs.')
    raw: int = c.number('raw', 'The levels of the last scan, all 1 before any.')

    def __repr__(self) -> str:
        return _shown(self, filtered='%016x' % self.filtered, raw='%016x' % self.raw)

    def configure(self, items: Sequence[ConfigurationItem]) -> None:
        """Applies the items in order. Raises ValueError, and applies none, where one names an input above
        63 or there are more than 255."""
        done = self._call('configure', encode.items_of(items), len(items))
        if done.kind == 1:
            raise ValueError('item %d names an input above 63' % done.place)
        if done.kind == 2:
            raise ValueError('more than 255 items')

    def scan(self, raw: int) -> int:
        """Samples each input. A one for each input that is not ignored and whose filtered state changed."""
        encode.check_range(2**64, raw)
        return int(self._call('scan', raw))


def _of_state(field: str, words: str) -> Any:
    """A property: a number of what a module is at present, and what it says."""
    return property(lambda self: int(getattr(self._call('state'), field)), doc=words)


# Why an answer of the maker is refused, by the count that says so.
_REFUSALS = {
    constants.NOT_AWAITED: 'no answer is awaited',
    constants.OTHER_AWAITED: 'the answer to another command is awaited',
    constants.BODY_TOO_LONG: 'the body has more than 772 octets',
}


class AnswerRefused(ValueError):
    """Why an answer of the module's maker is refused: its count is one of constants.NOT_AWAITED, OTHER_AWAITED and
    BODY_TOO_LONG."""

    def __init__(self, count: int) -> None:
        super().__init__(_REFUSALS[count])
        self.count = count

    def __reduce__(self) -> Tuple[Type['AnswerRefused'], Tuple[int]]:
        return AnswerRefused, (self.count,)


class Module(c.Kept):
    """A field I/O module of which `waiting` entries may wait."""
    _name, _struct = 'sized_module', c.CSizedModule

    counter: int = _of_state('counter', 'The milliseconds counted, modulo 2^32.')
    filtered: int = _of_state('filtered', 'The filtered states, also of ignored inputs.')
    raw: int = _of_state('raw', 'The levels of the last scan, all 1 before any.')
    flags: int = _of_state('flags', 'The flags that are up.')
    waiting: int = _of_state('waiting', 'How many entries wait for a poll.')

    def __init__(self, id: int = 2, per_block: int = c.MOST_ENTRIES, waiting: int = c.STANDARD_WAITING) -> None:
        """It answers `id` to command 60; its blocks have at most `per_block` entries, 1 to 255; `waiting` is 1 to 8,192."""
        if not (0 <= id <= 255 and 1 <= per_block <= 255 and 1 <= waiting <= c.MOST_WAITING):
            raise ValueError('id is 0 to 255, per_block 1 to 255, waiting 1 to 8,192')
        self._kept = self._struct()
        self._ring = ((ctypes.c_uint8 * 3 * waiting)(), waiting)
        self._call('start', operator.index(id), c.CLimits(waiting, per_block, 0))

    def __repr__(self) -> str:
        return _shown(self, counter=self.counter, waiting=self.waiting, flags='%02x' % self.flags)

    def restart(self) -> None:
        """Starts again with the same id and limits; both error counts are 0."""
        self._call('restart')

    def scan(self, raw: int) -> None:
        """Steps the counter by one millisecond, and samples each input; bit i of `raw` is input i."""
        encode.check_range(2**64, raw)
        self._call('scan', *self._ring, raw)

    def line_sync(self) -> None:
        """LINESYNC goes from 0 to 1: a load of the counter that was asked for happens now."""
        self._call('line_sync')

    def raise_flags(self, mask: int) -> None:
        """Sets the flags whose bits are one."""
        encode.check_range(256, mask)
        self._call('raise', mask)

    def set_errors(self, receive: int, transmit: int) -> None:
        """Sets the error counts that the answer 177 has from now on."""
        encode.check_range(256, receive, transmit)
        self._call('set_errors', receive, transmit)

    def count_receive_error(self) -> None:
        """Counts one more error in receiving; 255 stays 255."""
        self._call('count_receive_error')

    def count_transmit_error(self) -> None:
        """Counts one more error in transmitting; 255 stays 255."""
        self._call('count_transmit_error')

    def receive(self, octets: Octets) -> Optional[bytes]:
        """The answer to a frame: no octets for a command without an answer (56, 57 and 59), None if the octets spell no
        command; in both cases nothing changes. So `if answer:` asks whether there is one to send."""
        octets = encode.octets_of(octets)
        out = (ctypes.c_uint8 * c.LONGEST_FRAME)()
        count = self._call('receive', *self._ring, octets, len(octets), out, len(out))
        return None if count == c.NO_MESSAGE else bytes(out[:count])

    def makers_command(self, octets: Octets) -> Optional[Tuple[int, bytes]]:
        """The type and the body of the command in a frame that was received, if the maker of the module answers it: 56, 57, 59
        or 60, else None. Its answer is awaited from then on."""
        octets = encode.octets_of(octets)
        command = self._call('makers_command', octets, len(octets))
        return (command, octets[1:]) if command else None

    def answer_other(self, command: int, body: Octets) -> bytes:
        """The octets of the maker's answer to a command of this type with this body, once for each `makers_command`. If it is
        refused nothing changes, and an AnswerRefused says why."""
        encode.check_range(256, command)
        body = encode.octets_of(body)
        out = (ctypes.c_uint8 * c.LONGEST_FRAME)()
        count = self._call('answer_other', operator.index(command), body, len(body), out, len(out))
        if count > len(out):
            raise AnswerRefused(count)
        return bytes(out[:count])

    @property
    def outputs(self) -> Tuple[bytes, bytes]:
        """The data and the control octets."""
        outputs = self._call('state').outputs
        return bytes(outputs.levels), bytes(outputs.controls)

    @property
    def watchdog_ms(self) -> Optional[int]:
        """The timeout of the watchdog in milliseconds, 10 to 100; None before the first command 58."""
        return int(self._call('state').watchdog_ms) or None

    @property
    def errors(self) -> Tuple[int, int]:
        """The error counts, in receiving and in transmitting."""
        errors = self._call('state').errors
        return errors.receive, errors.transmit
