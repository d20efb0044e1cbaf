"""Compares another maker's module or CPU's end with the proved one, by random scripts (tools/conformance/conformance.h)."""

import ctypes
from ctypes import CFUNCTYPE, POINTER, c_int, c_size_t, c_uint, c_uint8, c_uint64, c_ulong, c_void_p
from typing import Any, Callable, List, Optional, Sequence, Tuple

from . import _library as c
from .records import RecordItem

__all__ = ['CpuMaker', 'CpuMix', 'Maker', 'Mix', 'run', 'run_cpu']

_ACT = CFUNCTYPE(None, c_void_p)
_STEP = CFUNCTYPE(None, c_void_p, c_uint64)
_EXCHANGE = CFUNCTYPE(c_size_t, c_void_p, POINTER(c_uint8), c_size_t, POINTER(c_uint8))
_RESET = CFUNCTYPE(None, c_void_p, c_uint8)
_POLL = CFUNCTYPE(c_size_t, c_void_p, POINTER(c_uint8))
_HEAR = CFUNCTYPE(c_size_t, c_void_p, POINTER(c_uint8), c_size_t, POINTER(c.CRecordItem))
_NUMBER = CFUNCTYPE(c_uint8, c_void_p)
_OUTPUTS = CFUNCTYPE(None, c_void_p, POINTER(c_uint8), POINTER(c_uint8))

# More octets than a struct result has.
_RESULT_ROOM = 65536

# What a call returns that raised: the tester then stops.
_FAILED = c_size_t(-1).value


class _Mixed(ctypes.Structure):
    """A struct whose text has its fields."""

    def __repr__(self) -> str:
        values = ', '.join('%s=%d' % (field[0], getattr(self, field[0])) for field in self._fields_)
        return '%s(%s)' % (type(self).__name__, values)


class Mix(_Mixed):
    """How often each comes in 1,000 events, the rest being scans; `overflows` in 1,000 scripts. With a mix of one's own a
    run has random scripts alone, without those of edges."""
    _fields_ = [(name, c_uint) for name in ('polls', 'repeats', 'out_of_sequence', 'configurations', 'others', 'syncs',
                                            'hostile', 'restarts', 'overflows', 'calm', 'steady')]


class _Maker(ctypes.Structure):
    _fields_ = [('context', c_void_p), ('id', c_uint8), ('per_block', c_uint8), ('reset', _ACT), ('step', _STEP),
                ('line_sync', _ACT), ('exchange', _EXCHANGE), ('outputs', _OUTPUTS), ('watchdog_ms', _NUMBER)]


class Maker:
    """The module under test: override the four calls, and `outputs` and `watchdog_ms` to compare them."""
    id = 2
    per_block = 255

    def reset(self) -> None:
        """As after power on."""
        raise NotImplementedError

    def step(self, inputs: int) -> None:
        """Sets the 64 inputs, and steps one millisecond."""
        raise NotImplementedError

    def line_sync(self) -> None:
        """LINESYNC goes from 0 to 1."""
        raise NotImplementedError

    def exchange(self, octets: bytes) -> Optional[bytes]:
        """The answer to a frame; None, or no octets, if there is none."""
        raise NotImplementedError

    def outputs(self) -> Tuple[bytes, bytes]:
        """The eight data octets and the eight control octets."""
        raise NotImplementedError

    def watchdog_ms(self) -> int:
        """The timeout of the watchdog, 0 before the first command 58."""
        raise NotImplementedError


class _Calls:
    """The calls of a maker as the tester makes them. The first that raises is the last that is made."""

    def __init__(self) -> None:
        self.raised: Optional[BaseException] = None

    def guarded(self, call: Callable[..., Optional[int]], failed: int = 0) -> Callable[..., int]:
        """The call, or `failed` if it raises or one before it did."""
        def guarded(_: object, *given: Any) -> int:
            if self.raised is not None:
                return failed
            try:
                return call(*given) or 0
            except BaseException as raised:
                self.raised = raised
                return failed
        return guarded


def _raw(maker: Maker, calls: _Calls) -> _Maker:
    def exchange(octets: Any, length: int, out: Any) -> int:
        answer = (maker.exchange(ctypes.string_at(octets, length)) or b'')[:c.LONGEST_FRAME]
        ctypes.memmove(out, answer, len(answer))
        return len(answer)

    def outputs(levels: Any, controls: Any) -> None:
        for out, octets in zip((levels, controls), maker.outputs()):
            ctypes.memmove(out, bytes(octets[:8]), 8)

    raw = _Maker(None, maker.id, maker.per_block, _ACT(calls.guarded(maker.reset)), _STEP(calls.guarded(maker.step)),
                 _ACT(calls.guarded(maker.line_sync)), _EXCHANGE(calls.guarded(exchange, _FAILED)))
    if type(maker).outputs is not Maker.outputs:
        raw.outputs = _OUTPUTS(calls.guarded(outputs))
    if type(maker).watchdog_ms is not Maker.watchdog_ms:
        raw.watchdog_ms = _NUMBER(calls.guarded(maker.watchdog_ms))
    return raw


class CpuMix(_Mixed):
    """How often each comes in 1,000 polls; `orderly` in 1,000 scripts, which have losses alone."""
    _fields_ = [(name, c_uint) for name in ('lost_polls', 'lost_answers', 'late_answers', 'repeats', 'others',
                                            'hostile', 'overflows', 'orderly')]


class _CpuMaker(ctypes.Structure):
    _fields_ = [('context', c_void_p), ('reset', _RESET), ('poll', _POLL), ('hear', _HEAR), ('number', _NUMBER)]


class CpuMaker:
    """The CPU's end under test: override the four calls."""

    def reset(self, number: int) -> None:
        """As at its start; its first poll asks for this block."""
        raise NotImplementedError

    def poll(self) -> bytes:
        """Its next poll, also where the poll before had no answer."""
        raise NotImplementedError

    def hear(self, octets: bytes) -> List[RecordItem]:
        """Takes a frame; what this adds to its record."""
        raise NotImplementedError

    def number(self) -> int:
        """The number of the block that its next poll asks for."""
        raise NotImplementedError


def _raw_cpu(maker: CpuMaker, calls: _Calls) -> _CpuMaker:
    def poll(out: Any) -> int:
        octets = maker.poll()[:c.LONGEST_FRAME]
        ctypes.memmove(out, octets, len(octets))
        return len(octets)

    def hear(octets: Any, length: int, out: Any) -> int:
        items = maker.hear(ctypes.string_at(octets, length))[:c.MOST_RECORD_ITEMS]
        for place, item in enumerate(items):
            out[place] = c.CRecordItem(**RecordItem(*item)._asdict())
        return len(items)

    return _CpuMaker(None, _RESET(calls.guarded(maker.reset)), _POLL(calls.guarded(poll, _FAILED)),
                     _HEAR(calls.guarded(hear, _FAILED)), _NUMBER(calls.guarded(maker.number)))


class _Ends(ctypes.Structure):
    _fields_ = [('module', POINTER(_Maker)), ('cpu', POINTER(_CpuMaker)), ('masked', c_uint64 * 2),
                ('left_out', c_uint64 * 2), ('has_own_clock', c_int), ('most_tried', c_ulong),
                ('outside', c_void_p), ('guard_ms', c_int)]


class _Options(ctypes.Structure):
    _fields_ = [('events', c_ulong), ('seed', c_uint64), ('mix', POINTER(Mix)), ('cpu_mix', POINTER(CpuMix)),
                ('excepted', c_uint64 * 2), ('stops', c_int), ('is_outside', c_int), ('kept', c_void_p)]


def _options(seed: int, events: int, excepted: Sequence[str], goes_on: bool, **mixes: Optional[_Mixed]) -> _Options:
    options = _Options(events=events, seed=seed, stops=not goes_on,
                       **{name: ctypes.pointer(mix) for name, mix in mixes.items() if mix is not None})
    for name in excepted:
        rule = c.library.fio2070_tester_rule_named(name.encode('ascii'))
        if rule >= 128 or not c.library.fio2070_tester_is_own(rule):
            raise ValueError('%s is no rule of the own profile' % name)
        options.excepted[rule // 64] |= 1 << rule % 64
    return options


def _find(ends: _Ends, calls: _Calls, options: _Options) -> Optional[str]:
    """What the tester writes, None if it finds no difference. Raises what a call of the maker raised."""
    libc = ctypes.CDLL(None)
    libc.open_memstream.restype = c_void_p
    libc.open_memstream.argtypes = [POINTER(c_void_p), POINTER(c_size_t)]
    libc.fclose.argtypes = libc.free.argtypes = [c_void_p]
    test = c.library.fio2070_tester_test
    test.restype = None
    test.argtypes = [POINTER(_Ends), POINTER(_Options), c_void_p, c_void_p]
    text, length = c_void_p(), c_size_t()
    stream = libc.open_memstream(ctypes.byref(text), ctypes.byref(length))
    test(ends, options, ctypes.create_string_buffer(_RESULT_ROOM), stream)
    libc.fclose(stream)
    report = ctypes.string_at(text, length.value).decode('ascii')
    libc.free(text)
    if calls.raised is not None:
        raise calls.raised
    return report or None


def run(maker: Maker, *, seed: int = 1, events: int = 100_000, mix: Optional[Mix] = None, excepted: Sequence[str] = (),
        goes_on: bool = False) -> Optional[str]:
    """Runs random scripts of this many `events`; another `seed` gives other scripts. All but the maker is given by name.

    None if all answers are the same; else what differs, the first rule that this breaks, and a short script that shows it,
    in the format of `fio2070 simulate`; such a report of each rule that differs, if it `goes_on`. The `excepted` rules of
    the own profile are not asked. What a call of the maker raises, this raises."""
    calls = _Calls()
    options = _options(seed, events, excepted, goes_on, mix=mix)
    return _find(_Ends(module=ctypes.pointer(_raw(maker, calls))), calls, options)


def run_cpu(maker: CpuMaker, *, seed: int = 1, events: int = 100_000, mix: Optional[CpuMix] = None,
            excepted: Sequence[str] = (), goes_on: bool = False) -> Optional[str]:
    """None if all polls, records and numbers are the same; else such a report, with the transcript; otherwise like `run`."""
    calls = _Calls()
    options = _options(seed, events, excepted, goes_on, cpu_mix=mix)
    return _find(_Ends(cpu=ctypes.pointer(_raw_cpu(maker, calls))), calls, options)
