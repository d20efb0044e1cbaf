"""What the reader of logs says of lines, many at a time."""

import array
import itertools
import operator
import struct
import sys
from typing import Iterable, Iterator, List, NamedTuple, Optional, Sequence, Tuple, cast

from . import _library as c
from . import constants

_KINDS = ('blank', 'frames', 'part', 'possible', 'damaged', 'passed over')
# By their numbers, of which some are free ('-').
_REASONS = ('', 'no octets', 'no message', 'no form', 'more', 'unread frame', 'too long', 'bad line', '-', '-', 'loss', 'heading', '-',
            'copy', 'broken')
_SIDES = ('', '>', '<')
_TIME_KINDS = ('', 'date', 'day', 'start')
# The most frames of a batch.
MOST_FRAMES = c.CLogBatch.lengths.size // 2
# The numbers of struct fio2070_log_verdict and struct fio2070_log_place, in the processor's order of octets: these, and the names
# that take them below, are written by tools/generate-layouts.
_VERDICT, _PLACE = struct.Struct('=QQIIBBBBBBBB'), struct.Struct('=QII')
# Where in a verdict its kind, its reason, the kind of its time and its side are; in words of 32 bits how many frames it has; and in
# words of 64 its line and its time.
_KIND, _REASON = c.CLogVerdict.kind.offset, c.CLogVerdict.reason.offset
_TIME_KIND, _SAID = c.CLogVerdict.time_kind.offset, c.CLogVerdict.said.offset
_FRAMES, _LINE, _TIME = c.CLogVerdict.frames.offset // 4, c.CLogVerdict.line.offset // 8, c.CLogVerdict.time.offset // 8
_HEADER = c.CLogVerdict.address.offset // 4
_OTHERS_ANSWER = constants.TYPE_SET_OUTPUTS + constants.TYPE_ANSWER


def _header_of(word: int) -> bytes:
    """The octets of a header that is read as a word of 32 bits."""
    octets = word.to_bytes(4, sys.byteorder)
    return octets[:octets[2]]


class Verdict(NamedTuple):
    """What the reader says of a line of a log.

    `line` is its number, from 1. `kind` is 'blank'; 'frames', which end in it, or of which it shows that they ended above; 'part', of
    a frame that ends below; 'possible', which no form has, and which may be a message; 'damaged', which a form has, and which gives no
    frame; or 'passed over', skipped. `reason` says why the line gives no frame, in one of these words: 'no octets', 'no message',
    'no form', 'unread frame' (of no form, with a right check), 'too long', 'loss' (no octets, and words of loss), 'heading' (no message, and the heading of a log or of a part of one),
    'copy' (of the frame above), and by order 'bad line'; or what else is in one that does: 'more' (octets that may be a message),
    'broken' (the message above is not whole, and does not go on here; of a line of any kind but a damaged one); else it is empty. The
    octets of `frames` are written at `places`, in their order: each is the number of a line, and where it begins and ends there, in
    octets of UTF-8, after colours, NUL and marks are taken out. `time` is in microseconds, None
    if there is none, and `time_kind` what it counts from: 'date' is 1970, 'day' midnight, 'start' a start that the log does not name; empty
    without a time. `said` is '>' if the line says that the CPU sent these octets, '<' if the module, else empty. `header`
    is the address that stands before the message, and the control octet if there is one; empty if there is none, or the frames of the
    line have not all the same. `foreign` is the type of the message that the line has in place of frames, if this protocol has none of that
    type; or 55, 180 or 181, if that message has `size` octets of inputs or of outputs, other than 8: of a module of another size; or 183,
    if the line has the answer to such a 55 in the line above; else 0."""
    line: int
    kind: str
    reason: str
    frames: Tuple[bytes, ...]
    places: Tuple[Tuple[int, int, int], ...]
    time: Optional[int]
    said: str
    header: bytes = b''
    foreign: int = 0
    size: int = 0
    time_kind: str = ''


class LogBatch:
    """Verdicts on lines of a log, one after another, as the library has them: the judge, the counts and the signs of a log take them
    at once. A reader returns them (`LogReader.batches`), or they are made of verdicts."""

    def __init__(self, verdicts: Sequence[Verdict] = ()) -> None:
        """Raises ValueError if there are more than 4,096 verdicts, 20,480 frames or places, or 65,536 octets of frames."""
        self._batch = c.CLogBatch()
        self._verdicts, self._places, self._lengths, self._octets = (
            memoryview(getattr(self._batch, name)).cast('B') for name in ('verdicts', 'places', 'lengths', 'octets'))
        self._part: Optional['LogBatch'] = None     # over which `parts` writes
        if verdicts:
            self._write(verdicts)

    def __len__(self) -> int:
        return int(self._batch.verdict_count)

    def __repr__(self) -> str:
        return '<LogBatch lines=%d frames=%d>' % (len(self), self.frame_count)

    def _write(self, verdicts: Sequence[Verdict]) -> None:
        """Writes verdicts."""
        if any((one.time is None) != (one.time_kind == '') for one in verdicts):
            raise ValueError('a time and its kind go together')
        batch, frames = self._batch, [octets for verdict in verdicts for octets in verdict.frames]
        places = [place for verdict in verdicts for place in verdict.places]
        told = [_VERDICT.pack(one.line, one.time or 0, len(one.frames), len(one.places), _KINDS.index(one.kind),
                              _REASONS.index(one.reason), _TIME_KINDS.index(one.time_kind), _SIDES.index(one.said),
                              *(one.header or bytes([0, one.size])).ljust(2, b'\0'), len(one.header), one.foreign) for one in verdicts]
        parts = [(self._verdicts, b''.join(told)), (self._places, b''.join(_PLACE.pack(*place) for place in places)),
                 (self._lengths, array.array('H', map(len, frames)).tobytes()), (self._octets, b''.join(frames))]
        if any(len(octets) > len(field) for field, octets in parts):
            raise ValueError('too many verdicts, frames, places or octets for a batch')
        for field, octets in parts:
            field[:len(octets)] = octets
        batch.verdict_count, batch.frame_count, batch.place_count = len(verdicts), len(frames), len(places)
        batch.octet_count = len(parts[-1][1])

    @property
    def frame_count(self) -> int:
        """How many frames the lines give."""
        return int(self._batch.frame_count)

    @property
    def place_count(self) -> int:
        """At how many places these are written."""
        return int(self._batch.place_count)

    def _each(self, field: int) -> bytes:
        """A number of each verdict that is an octet."""
        return bytes(self._verdicts[field:_VERDICT.size * len(self):_VERDICT.size])

    def _words(self, field: int) -> List[int]:
        """A number of each verdict that has 64 bits."""
        return self._verdicts.cast('Q')[field:_VERDICT.size // 8 * len(self):_VERDICT.size // 8].tolist()

    def numbers(self) -> List[int]:
        """The number of each line."""
        return self._words(_LINE)

    def times(self) -> List[int]:
        """The time of each line in microseconds, 0 if it has none."""
        return self._words(_TIME)

    @property
    def kinds(self) -> bytes:
        """The kind of each line, one of `constants.LOG_BLANK` and those after it."""
        return self._each(_KIND)

    @property
    def reasons(self) -> bytes:
        """The reason of each line, one of `constants.LOG_NO_REASON` and those after it."""
        return self._each(_REASON)

    @property
    def sides(self) -> bytes:
        """Who sent the octets of each line, as the line says, one of `constants.LOG_NO_SIDE` and those after it."""
        return self._each(_SAID)

    @property
    def time_kinds(self) -> bytes:
        """What the time of each line counts from, one of `constants.LOG_NO_TIME` and those after it."""
        return self._each(_TIME_KIND)

    @property
    def addresses(self) -> bytes:
        """Of each line the address that stands before its messages, 0 if there is none."""
        return self._each(c.CLogVerdict.address.offset)

    @property
    def header_lengths(self) -> bytes:
        """Of each line how many octets its header has: 0, 1 for an address alone, or 2."""
        return self._each(c.CLogVerdict.header.offset)

    @property
    def foreign(self) -> bytes:
        """Of each line the type of the message that it has in place of frames, if this protocol has none of that type, or none of that
        size; 183 of the answer to such a 55; else 0."""
        return self._each(c.CLogVerdict.foreign.offset)

    @property
    def sizes(self) -> bytes:
        """Of each line with a `foreign` message how many octets of inputs or of outputs it has, 0 if this protocol has none of its type."""
        return self._each(c.CLogVerdict.control.offset)

    def headers(self) -> List[bytes]:
        """The header of each line: the address that stands before its messages, with the control octet if there is one; empty if there
        is none."""
        words = self._verdicts.cast('I')[_HEADER:_VERDICT.size // 4 * len(self):_VERDICT.size // 4].tolist()
        headers = {word: _header_of(word) for word in set(words)}
        return [headers[word] for word in words]

    def told(self, index: int) -> Verdict:
        """The verdict on a line that has no frames and no places, or without these."""
        line, time, _, _, kind, reason, time_kind, said, *header, count, foreign = _VERDICT.unpack_from(self._verdicts, _VERDICT.size * index)
        return Verdict(line, _KINDS[kind], _REASONS[reason], (), (), time if time_kind else None, _SIDES[said], bytes(header[:count]), foreign,
                       0 if count else header[1], _TIME_KINDS[time_kind])

    def line(self, index: int) -> int:
        """The number of a line."""
        return int(self._batch.verdicts[index].line)

    def frame_counts(self) -> List[int]:
        """How many frames each line gives."""
        return self._verdicts.cast('I')[_FRAMES:_VERDICT.size // 4 * len(self):_VERDICT.size // 4].tolist()

    def frames(self) -> List[bytes]:
        """The frames, in order."""
        ends = list(itertools.accumulate(self._lengths.cast('H')[:self.frame_count]))
        octets = bytes(self._octets[:self._batch.octet_count])
        return [octets[begin:end] for begin, end in zip([0, *ends], ends)]

    def last_frames(self, count: int) -> List[bytes]:
        """The last frames, at most so many."""
        found, end = [], self._batch.octet_count
        for length in reversed(self._batch.lengths[max(self.frame_count - count, 0):self.frame_count]):
            found.append(bytes(self._octets[end - length:end]))
            end -= length
        return found[::-1]

    def types(self) -> bytes:
        """The type of each frame, 0 of one without octets."""
        lengths = self._lengths.cast('H')[:self.frame_count].tolist()
        begins = list(itertools.accumulate(lengths, initial=0))
        types = bytes(operator.itemgetter(*begins, 0)(bytes(self._octets[:self._batch.octet_count]) + b'\0'))[:len(lengths)]
        return types if 0 not in lengths else bytes(length and code for length, code in zip(lengths, types))

    def set_side(self, index: int, side: int) -> None:
        """Changes who sent the frames of a line, as it says, one of `constants.LOG_NO_SIDE` and those after it."""
        self._batch.verdicts[index].said = side

    def _drop_passed(self) -> 'LogBatch':
        """Takes the frames of lines out that are passed over: the answers to messages of modules of another size. The batch has no places
        afterwards if there are any."""
        if _OTHERS_ANSWER not in self.foreign:
            return self
        kinds, frames, begins = self.kinds, self.frames(), list(itertools.accumulate(self.frame_counts(), initial=0))
        gone = {line for line in range(len(self)) if kinds[line] == constants.LOG_PASSED_OVER and begins[line] < begins[line + 1]}
        left = [frame for line in range(len(self)) if line not in gone for frame in frames[begins[line]:begins[line + 1]]]
        for line in gone:
            self._batch.verdicts[line].frames = 0
        self._fill(bytes(self._verdicts[:_VERDICT.size * len(self)]), array.array('H', map(len, left)).tobytes(), b''.join(left))
        return self

    def parts(self, masks: Iterable[bytes]) -> Iterator['LogBatch']:
        """For each mask this batch with blank lines in place of some, and without places, until the next one: the mask has 1 for each line
        that is taken, 2 for one that is taken as damaged, 0 for one that is as blank; lines that it does not reach are."""
        part = self._part = LogBatch() if self._part is None else self._part
        for mask in masks:
            c.library.fio2070_log_batch_part(self._batch, bytes(mask), len(mask), part._batch)
            yield part

    def _fill(self, verdicts: bytes, lengths: bytes, octets: bytes) -> None:
        """Writes verdicts, and the lengths and the octets of their frames; there are no places."""
        batch = self._batch
        for field, part in ((self._verdicts, verdicts), (self._lengths, lengths), (self._octets, octets)):
            field[:len(part)] = part
        batch.verdict_count, batch.frame_count, batch.place_count, batch.octet_count = len(verdicts) // _VERDICT.size, len(lengths) // 2, 0, len(octets)

    def verdicts(self) -> List[Verdict]:
        """The verdicts."""
        verdicts, frame, place, all_frames = [], 0, 0, tuple(self.frames())
        all_places = tuple(cast(Iterator[Tuple[int, int, int]], _PLACE.iter_unpack(self._places[:_PLACE.size * self.place_count])))
        for line, time, frames, places, kind, reason, time_kind, said, address, control, header, foreign in _VERDICT.iter_unpack(
                self._verdicts[:_VERDICT.size * len(self)]):
            verdicts.append(Verdict(line, _KINDS[kind], _REASONS[reason], all_frames[frame:frame + frames],
                                    all_places[place:place + places], time if time_kind else None, _SIDES[said],
                                    bytes((address, control)[:header]), foreign, 0 if header else control, _TIME_KINDS[time_kind]))
            frame, place = frame + frames, place + places
        return verdicts
