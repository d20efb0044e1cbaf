"""The shared library, and the structs of include/fio2070.h."""

import ctypes
import os
import sys
from ctypes import POINTER, c_char_p, c_size_t, c_uint8, c_uint16, c_uint32, c_uint64
from typing import Any, Dict, Tuple

# With these the calls take their arrays.
from .constants import LONGEST_FRAME as LONGEST_FRAME, LONGEST_TEXT as LONGEST_TEXT, MOST_ENTRIES as MOST_ENTRIES
from .constants import MOST_RECORD_ITEMS as MOST_RECORD_ITEMS, MOST_WAITING as MOST_WAITING, NO_MESSAGE as NO_MESSAGE
from .constants import STANDARD_WAITING as STANDARD_WAITING

_NAME = {'win32': 'fio2070.dll', 'darwin': 'libfio2070.1.dylib'}.get(sys.platform, 'libfio2070.so.1')


def _found() -> ctypes.CDLL:
    """The library that FIO2070_LIBRARY names, or the one beside this file, or at the top of the repository that this
    file is in, or the installed one. An OSError says in one line what to do without one."""
    here = os.path.dirname(os.path.abspath(__file__))
    places = [os.path.join(here, _NAME), os.path.join(here, '..', '..', '..', _NAME)]
    named = [os.environ['FIO2070_LIBRARY']] if os.environ.get('FIO2070_LIBRARY') else []
    found = (named + list(filter(os.path.exists, places)) + [_NAME])[0]
    try:
        return ctypes.CDLL(found)
    except OSError as fault:
        raise OSError('the shared library cannot be loaded: run `make library` at the top of the repository, which needs a C '
                      'compiler alone, or set FIO2070_LIBRARY to its path (%s)' % fault) from None


class CFault(ctypes.Structure):
    _fields_ = [('kind', c_uint8), ('code', c_uint8), ('needed', c_uint16), ('reserved', c_uint8 * 4),
                ('got', c_uint64)]


class CEntry(ctypes.Structure):
    _fields_ = [('input', c_uint8), ('state', c_uint8), ('stamp', c_uint16)]


class CItem(ctypes.Structure):
    _fields_ = [('input', c_uint8), ('ignore', c_uint8), ('leading', c_uint8), ('trailing', c_uint8)]


class CCommand(ctypes.Structure):
    _fields_ = [('code', c_uint8), ('clear', c_uint8), ('block', c_uint8), ('timeout', c_uint8), ('count', c_uint8),
                ('reserved', c_uint8), ('body', c_uint16), ('load', c_uint32), ('levels', c_uint8 * 8),
                ('controls', c_uint8 * 8)]


class CAnswer(ctypes.Structure):
    _fields_ = [('code', c_uint8), ('flags', c_uint8), ('receive_errors', c_uint8), ('transmit_errors', c_uint8),
                ('status', c_uint8), ('block', c_uint8), ('count', c_uint8), ('reserved', c_uint8 * 3),
                ('body', c_uint16), ('stamp', c_uint32), ('inputs', c_uint64)]


class CPoller(ctypes.Structure):
    _fields_ = [('number', c_uint8)]


class CRecordItem(ctypes.Structure):
    _fields_ = [('gap', c_uint8), ('input', c_uint8), ('state', c_uint8), ('reserved', c_uint8 * 3),
                ('stamp', c_uint16), ('wide', c_uint32)]


class CHeard(ctypes.Structure):
    _fields_ = [('kind', c_uint8), ('code', c_uint8), ('number', c_uint8), ('status', c_uint8), ('stamp', c_uint32),
                ('items', c_uint16), ('entries', c_uint8), ('reserved', c_uint8 * 5), ('fault', CFault)]


class CLine(ctypes.Structure):
    _fields_ = [('rate', c_uint32), ('answer', c_uint32), ('other', c_uint32), ('lost', c_uint16),
                ('waiting', c_uint16), ('per_block', c_uint8), ('inputs', c_uint8), ('filter', c_uint8), ('stop_bits', c_uint8),
                ('drift', c_uint16), ('jitter', c_uint16)]


class CPace(ctypes.Structure):
    _fields_ = [('scans', c_uint64), ('round', c_uint64), ('late', c_uint64), ('load', c_uint64)]


class CConfigured(ctypes.Structure):
    _fields_ = [('kind', c_uint8), ('reserved', c_uint8 * 7), ('place', c_uint64)]


class CCounter(ctypes.Structure):
    _fields_ = [('value', c_uint32), ('load', c_uint32), ('is_asked', c_uint8), ('reserved', c_uint8 * 3)]


class CChecker(ctypes.Structure):
    _fields_ = [('has_awaited', c_uint8), ('awaited', c_uint8), ('absent_named', c_uint8), ('has_polled', c_uint8),
                ('polled', c_uint8), ('answered', c_uint8), ('advanced', c_uint8), ('more', c_uint8),
                ('skips', c_uint8), ('per_block', c_uint8), ('waiting', c_uint16), ('reserved', c_uint8 * 4)]


class CBreach(ctypes.Structure):
    _fields_ = [('rule', c_uint8), ('has_due', c_uint8), ('due', c_uint8), ('got', c_uint8)]


class CContentBreach(ctypes.Structure):
    _fields_ = [('rule', c_uint8), ('input', c_uint8), ('items', c_uint16)]


class CJudgeOutcome(ctypes.Structure):
    _fields_ = [('kind', c_uint8), ('why', c_uint8), ('rule', c_uint8), ('has_due', c_uint8), ('due', c_uint8),
                ('got', c_uint8), ('input', c_uint8), ('reserved', c_uint8), ('items', c_uint16)]


class CLogVerdict(ctypes.Structure):
    _fields_ = [('line', c_uint64), ('time', c_uint64), ('frames', c_uint32), ('places', c_uint32), ('kind', c_uint8),
                ('reason', c_uint8), ('time_kind', c_uint8), ('said', c_uint8), ('address', c_uint8),
                ('control', c_uint8), ('header', c_uint8), ('foreign', c_uint8)]


class CLogPlace(ctypes.Structure):
    _fields_ = [('line', c_uint64), ('start', c_uint32), ('end', c_uint32)]


class CLogBatch(ctypes.Structure):
    _fields_ = [('verdict_count', c_uint32), ('frame_count', c_uint32), ('octet_count', c_uint32),
                ('place_count', c_uint32), ('verdicts', CLogVerdict * 4096), ('places', CLogPlace * 20480), ('lengths', c_uint16 *
                20480), ('octets', c_uint8 * 65536)]


class CLogReadAs(ctypes.Structure):
    _fields_ = [('from', c_uint64), ('lines', c_uint64), ('damaged', c_uint64), ('is_echo', c_uint8),
                ('front_length', c_uint8), ('reserved', c_uint8 * 6), ('front', c_uint8 * 120)]


class CLogFormList(ctypes.Structure):
    _fields_ = [('count', c_uint32), ('reserved', c_uint8 * 4), ('forms', CLogReadAs * 16)]


class CLogSeam(ctypes.Structure):
    _fields_ = [('pause', c_uint64), ('frame', c_uint32), ('cause', c_uint8), ('is_lost', c_uint8),
                ('has_pause', c_uint8), ('missing', c_uint8)]


class CLogStretches(ctypes.Structure):
    _fields_ = [('blocks', c_uint64), ('transitions', c_uint64), ('lost', c_uint64), ('missing', c_uint64),
                ('missing_blocks', c_uint64), ('passed_over', c_uint64), ('unknown', c_uint64), ('restarts', c_uint64),
                ('disbelieved', c_uint64), ('timed', c_uint64), ('timed_whole', c_uint64), ('stamped', c_uint64),
                ('stamped_whole', c_uint64), ('loads', c_uint64), ('longest_pause', c_uint64), ('pause', c_uint64),
                ('polled_at', c_uint64), ('block_at', c_uint64), ('stamp', c_uint32), ('length', c_uint16),
                ('entries', c_uint8), ('number', c_uint8), ('status', c_uint8), ('has_block', c_uint8), ('has_block_at', c_uint8),
                ('has_polled_at', c_uint8), ('has_pause', c_uint8), ('is_loaded', c_uint8), ('items', c_uint8 * 773),
                ('reserved', c_uint8 * 5)]


class CLogCounts(ctypes.Structure):
    _fields_ = [('frames', c_uint64), ('polls', c_uint64), ('repeats', c_uint64), ('unanswered', c_uint64),
                ('marks', c_uint64), ('entries', c_uint64), ('restarts', c_uint64), ('types', c_uint64 * 256), ('inputs', c_uint64
                * 128), ('fills', c_uint64 * 256), ('sent_at', c_uint64), ('has_sent_at', c_uint8),
                ('command', c_uint8), ('has_command', c_uint8), ('polled', c_uint8), ('has_polled', c_uint8), ('waits', c_uint8),
                ('block', c_uint8), ('has_block', c_uint8), ('reset', c_uint8), ('first_reset', c_uint8),
                ('has_reset', c_uint8), ('reserved', c_uint8 * 5)]


class COutputs(ctypes.Structure):
    _fields_ = [('levels', c_uint8 * 8), ('controls', c_uint8 * 8)]


class CErrorCounts(ctypes.Structure):
    _fields_ = [('receive', c_uint8), ('transmit', c_uint8)]


class CState(ctypes.Structure):
    _fields_ = [('filtered', c_uint64), ('raw', c_uint64), ('outputs', COutputs), ('counter', c_uint32),
                ('waiting', c_uint16), ('flags', c_uint8), ('watchdog_ms', c_uint8), ('errors', CErrorCounts), ('reserved', c_uint8
                * 6)]


class CLimits(ctypes.Structure):
    _fields_ = [('waiting', c_uint16), ('per_block', c_uint8), ('reserved', c_uint8)]


class CWire(ctypes.Structure):
    _fields_ = [('octets', c_uint8 * 777), ('phase', c_uint8), ('held', c_uint16), ('check', c_uint16),
                ('address', c_uint16), ('control', c_uint16)]


class CWireBits(ctypes.Structure):
    _fields_ = [('octets', c_uint8 * 777), ('phase', c_uint8), ('ones', c_uint8), ('pending', c_uint8),
                ('value', c_uint8), ('count', c_uint8), ('full', c_uint8), ('reserved', c_uint8), ('held', c_uint16),
                ('check', c_uint16), ('address', c_uint16), ('control', c_uint16)]


def _words(name: str, count: int) -> Any:
    """A struct whose fields are the library's own, as words of 64 bits."""
    return type(name, (ctypes.Structure,), {'_fields_': [('words', c_uint64 * count)]})


CContentChecker = _words('CContentChecker', 87)
CJudge = _words('CJudge', 91)
CLogReader = _words('CLogReader', 65536)
CLogJudge = _words('CLogJudge', 94)
CLogSigns = _words('CLogSigns', 105)
CFilters = _words('CFilters', 27)
CSizedModule = _words('CSizedModule', 132)


class _Library:
    """The calls of the shared library, which the first of them loads."""

    def load(self) -> None:
        """Loads the library, if that is not done yet. Raises OSError without one."""
        if 'loaded' in self.__dict__:
            return
        found = _found()
        for name, (result, arguments) in _declared.items():
            try:
                function = getattr(found, name)
            except AttributeError:
                raise OSError('the shared library %s has no %s: it is older than this package' % (found._name, name)) from None
            function.restype, function.argtypes = result, arguments
            setattr(self, name, function)
        self.loaded = found

    def __getattr__(self, name: str) -> Any:
        if not name.startswith('fio2070_'):
            raise AttributeError(name)
        self.load()
        return self.__dict__[name] if name in self.__dict__ else getattr(self.loaded, name)


_declared: Dict[str, Tuple[Any, Tuple[Any, ...]]] = {}
library = _Library()


def _declare(name: str, result: Any, *arguments: Any) -> None:
    _declared[name] = result, arguments


class Kept:
    """What the library keeps in a struct of its caller: `_name` is that of its calls, `_struct` the struct."""
    _name: str
    _struct: Any

    def __init__(self) -> None:
        self._kept = self._struct()
        self._call('start')

    def _call(self, name: str, *arguments: Any) -> Any:
        return getattr(library, 'fio2070_%s_%s' % (self._name, name))(self._kept, *arguments)


def number(name: str, words: str) -> Any:
    """A property: the number that a call without arguments returns, and what it says."""
    return property(lambda self: int(self._call(name)), doc=words)


# The calls: written by tools/generate-layouts.

_declare('fio2070_encode_answer', c_size_t, POINTER(CAnswer), POINTER(CEntry), c_size_t, c_char_p, c_size_t,
         POINTER(c_uint8), c_size_t)
_declare('fio2070_decode_answer', CFault, c_char_p, c_size_t, POINTER(CAnswer))
_declare('fio2070_block_entries', c_size_t, c_char_p, c_size_t, POINTER(CEntry), c_size_t)
_declare('fio2070_checker_start', None, POINTER(CChecker))
_declare('fio2070_checker_start_within', c_uint8, POINTER(CChecker), CLimits)
_declare('fio2070_checker_start_anywhere', c_uint8, POINTER(CChecker), CLimits)
_declare('fio2070_checker_sent', c_uint8, POINTER(CChecker), c_char_p, c_size_t, POINTER(CBreach))
_declare('fio2070_checker_heard', c_uint8, POINTER(CChecker), c_char_p, c_size_t, POINTER(CBreach))
_declare('fio2070_encode_command', c_size_t, POINTER(CCommand), POINTER(CItem), c_size_t, c_char_p, c_size_t,
         POINTER(c_uint8), c_size_t)
_declare('fio2070_decode_command', CFault, c_char_p, c_size_t, POINTER(CCommand))
_declare('fio2070_command_items', c_size_t, c_char_p, c_size_t, POINTER(CItem), c_size_t)
_declare('fio2070_content_start', None, POINTER(CContentChecker))
_declare('fio2070_content_start_begun', None, POINTER(CContentChecker))
_declare('fio2070_content_sent', None, POINTER(CContentChecker), c_char_p, c_size_t)
_declare('fio2070_content_heard', c_uint8, POINTER(CContentChecker), c_char_p, c_size_t, POINTER(CContentBreach))
_declare('fio2070_counter_start', None, POINTER(CCounter))
_declare('fio2070_counter_tick', None, POINTER(CCounter))
_declare('fio2070_counter_ask_load', None, POINTER(CCounter), c_uint32)
_declare('fio2070_counter_line_sync', None, POINTER(CCounter))
_declare('fio2070_counter_now', c_uint32, POINTER(CCounter))
_declare('fio2070_widen', c_uint32, c_uint32, c_uint16)
_declare('fio2070_filters_start', None, POINTER(CFilters))
_declare('fio2070_filters_scan', c_uint64, POINTER(CFilters), c_uint64)
_declare('fio2070_filters_filtered', c_uint64, POINTER(CFilters))
_declare('fio2070_filters_raw', c_uint64, POINTER(CFilters))
_declare('fio2070_filters_configure', CConfigured, POINTER(CFilters), POINTER(CItem), c_size_t)
_declare('fio2070_judge_start_anywhere', c_uint8, POINTER(CJudge), CLimits)
_declare('fio2070_judge_start_begun', c_uint8, POINTER(CJudge), CLimits)
_declare('fio2070_judge_lose', None, POINTER(CJudge))
_declare('fio2070_judge_sent', c_uint8, POINTER(CJudge), c_uint8, c_char_p, c_size_t, POINTER(CJudgeOutcome))
_declare('fio2070_judge_heard', c_uint8, POINTER(CJudge), c_char_p, c_size_t, POINTER(CJudgeOutcome))
_declare('fio2070_log_start', None, POINTER(CLogReader), c_uint8)
_declare('fio2070_log_read', c_size_t, POINTER(CLogReader), c_char_p, c_size_t, POINTER(CLogBatch))
_declare('fio2070_log_end', None, POINTER(CLogReader))
_declare('fio2070_log_counts_start', None, POINTER(CLogCounts))
_declare('fio2070_log_counts_lose', None, POINTER(CLogCounts))
_declare('fio2070_log_counts_frame', c_uint8, POINTER(CLogCounts), c_uint8, c_uint64, c_char_p, c_size_t,
         POINTER(c_uint64))
_declare('fio2070_log_counts_batch', c_uint32, POINTER(CLogCounts), POINTER(CLogBatch), POINTER(c_uint64))
_declare('fio2070_log_forms', None, POINTER(CLogReader), POINTER(CLogFormList))
_declare('fio2070_log_like', c_uint32, POINTER(CLogReader), c_char_p, c_size_t)
_declare('fio2070_log_judge_start', c_uint8, POINTER(CLogJudge), CLimits, c_uint8, c_uint8)
_declare('fio2070_log_judge_lose', None, POINTER(CLogJudge))
_declare('fio2070_log_judge_possible', None, POINTER(CLogJudge))
_declare('fio2070_log_judge_miss', None, POINTER(CLogJudge))
_declare('fio2070_log_judge_frame', c_uint8, POINTER(CLogJudge), c_uint8, c_uint8, c_char_p, c_size_t,
         POINTER(CJudgeOutcome))
_declare('fio2070_log_judge_batch', c_uint32, POINTER(CLogJudge), c_uint8, POINTER(CLogBatch), POINTER(CJudgeOutcome))
_declare('fio2070_log_batch_part', c_uint32, POINTER(CLogBatch), c_char_p, c_size_t, POINTER(CLogBatch))
_declare('fio2070_log_signs_start', None, POINTER(CLogSigns))
_declare('fio2070_log_signs_frame', None, POINTER(CLogSigns), c_uint8, c_uint8, c_char_p, c_size_t)
_declare('fio2070_log_signs_batch', None, POINTER(CLogSigns), c_uint8, POINTER(CLogBatch))
_declare('fio2070_log_signs_sign', c_uint8, POINTER(CLogSigns))
_declare('fio2070_log_stretches_start', None, POINTER(CLogStretches))
_declare('fio2070_log_stretches_batch', c_uint32, POINTER(CLogStretches), POINTER(CLogBatch), POINTER(CJudgeOutcome),
         POINTER(CLogSeam))
_declare('fio2070_sized_module_makers_command', c_uint8, POINTER(CSizedModule), c_char_p, c_size_t)
_declare('fio2070_sized_module_answer_other', c_size_t, POINTER(CSizedModule), c_uint8, c_char_p, c_size_t,
         POINTER(c_uint8), c_size_t)
_declare('fio2070_plan', c_uint8, POINTER(CLine), POINTER(CPace))
_declare('fio2070_poller_start', None, POINTER(CPoller), c_uint8)
_declare('fio2070_poller_poll', c_size_t, POINTER(CPoller), POINTER(c_uint8), c_size_t)
_declare('fio2070_poller_hear', CHeard, POINTER(CPoller), c_char_p, c_size_t, POINTER(CRecordItem), c_size_t)
_declare('fio2070_show', c_size_t, c_char_p, c_size_t, POINTER(c_uint8), c_size_t)
_declare('fio2070_sized_module_start', c_uint8, POINTER(CSizedModule), c_uint8, CLimits)
_declare('fio2070_sized_module_restart', None, POINTER(CSizedModule))
_declare('fio2070_sized_module_scan', None, POINTER(CSizedModule), POINTER(c_uint8 * 3), c_size_t, c_uint64)
_declare('fio2070_sized_module_line_sync', None, POINTER(CSizedModule))
_declare('fio2070_sized_module_raise', None, POINTER(CSizedModule), c_uint8)
_declare('fio2070_sized_module_set_errors', None, POINTER(CSizedModule), c_uint8, c_uint8)
_declare('fio2070_sized_module_count_receive_error', None, POINTER(CSizedModule))
_declare('fio2070_sized_module_count_transmit_error', None, POINTER(CSizedModule))
_declare('fio2070_sized_module_receive', c_size_t, POINTER(CSizedModule), POINTER(c_uint8 * 3), c_size_t, c_char_p,
         c_size_t, POINTER(c_uint8), c_size_t)
_declare('fio2070_sized_module_state', CState, POINTER(CSizedModule))
_declare('fio2070_fault_text', c_size_t, POINTER(CFault), POINTER(c_uint8), c_size_t)
_declare('fio2070_rule_text', c_size_t, c_uint8, POINTER(c_uint8), c_size_t)
_declare('fio2070_content_rule_text', c_size_t, c_uint8, POINTER(c_uint8), c_size_t)
_declare('fio2070_heard_text', c_size_t, POINTER(CHeard), POINTER(c_uint8), c_size_t)
_declare('fio2070_version', c_uint32)
_declare('fio2070_wire_start', None, POINTER(CWire), c_uint16, c_uint16)
_declare('fio2070_wire_read', c_size_t, POINTER(CWire), c_char_p, c_size_t, POINTER(c_uint8))
_declare('fio2070_wire_lose', None, POINTER(CWire))
_declare('fio2070_wire_message_length', c_size_t, POINTER(CWire))
_declare('fio2070_wire_write', c_size_t, c_uint8, c_uint8, c_char_p, c_size_t, POINTER(c_uint8), c_size_t)
_declare('fio2070_wire_check', c_uint16, c_char_p, c_size_t)
_declare('fio2070_wire_bits_start', None, POINTER(CWireBits), c_uint16, c_uint16)
_declare('fio2070_wire_bits_read', c_size_t, POINTER(CWireBits), c_char_p, c_size_t, POINTER(c_uint8))
_declare('fio2070_wire_bits_message_length', c_size_t, POINTER(CWireBits))
