"""Commands and answers as octets. Each raises ValueError where a number is out of its range, TypeError for what is none."""

import ctypes
import operator
from typing import Any, Iterable, Sequence, Union

from . import _library as c
from . import constants
from .records import Answer, Command, ConfigurationItem, Entry

# What a call takes as octets.
Octets = Union[bytes, bytearray, memoryview]
# The numbers that a call takes, which ctypes would cut to their width.
_WIDTHS = (ctypes.c_uint8, ctypes.c_uint16, ctypes.c_uint32, ctypes.c_uint64)


def check_range(bound: int, *numbers: int) -> None:
    """Raises ValueError where a number is not from 0 to bound - 1, TypeError for what is no whole number."""
    for number in map(operator.index, numbers):
        if not 0 <= number < bound:
            raise ValueError('%d is not from 0 to %d' % (number, bound - 1))


def octets_of(octets: Octets) -> bytes:
    """The octets as `bytes`. Raises TypeError for a number, of which `bytes` would make as many zeros."""
    if hasattr(octets, '__index__') and not hasattr(octets, '__len__'):
        raise TypeError('octets are bytes or the like, not %s' % type(octets).__name__)
    return bytes(octets)


def _check_widths(kinds: Iterable[Any], values: Iterable[Any]) -> None:
    """Raises as `check_range` if a number does not fit the width that the library declares for it."""
    for kind, value in zip(kinds, values):
        if kind in _WIDTHS:
            check_range(256 ** ctypes.sizeof(kind), value)


def _array(structure: Any, kind: Any, given: Any) -> Any:
    """A list as the library reads it. Raises TypeError if one of it lacks a field of its kind."""
    array = (structure * max(len(given), 1))()
    fields, widths = zip(*structure._fields_)
    for place, one in enumerate(given):
        if not all(hasattr(one, field) for field in kind._fields):
            raise TypeError('number %d of the list is no %s, but %s' % (place, kind.__name__, type(one).__name__))
        values = [int(one.ignore) if field == 'ignore' else getattr(one, field) for field in fields]
        _check_widths(widths, values)
        array[place] = structure(*values)
    return array


def items_of(items: Sequence[ConfigurationItem]) -> Any:
    """The items as the library reads them."""
    return _array(c.CItem, ConfigurationItem, items)


def _write(name: str, structure: Any, given: Any, elements: Any, count: int, **arrays: Any) -> bytes:
    """What a call of the library writes of a message: its struct, its items or entries, and its body."""
    body, fields = octets_of(given.body), dict(structure._fields_)
    numbers = {'count': count, 'body': len(body)}
    numbers.update((field, getattr(given, field)) for field in fields if field not in (*numbers, *arrays, 'reserved'))
    _check_widths((fields[field] for field in numbers), numbers.values())
    out = (ctypes.c_uint8 * c.LONGEST_FRAME)()
    call = getattr(c.library, 'fio2070_encode_' + name)
    length = call(structure(**numbers, **arrays), elements, count, body, len(body), out, len(out))
    if length > len(out):
        raise ValueError('there is no such message')
    return bytes(out[:length])


def _check_kind(kind: Any, given: Any) -> None:
    if not isinstance(given, kind):
        raise TypeError('a message is a %s, not %s' % (kind.__name__, type(given).__name__))


def command(given: Command) -> bytes:
    """The octets of a command, such as Command(constants.TYPE_POLL, block=5), or one that `decode_command` returned. A field
    that its type does not have is 0 or empty."""
    _check_kind(Command, given)
    levels, controls = octets_of(given.levels), octets_of(given.controls)
    if len(levels) != 8 or len(controls) != 8:
        raise ValueError('the outputs are eight octets each')
    eight = ctypes.c_uint8 * 8
    return _write('command', c.CCommand, given, items_of(given.items), len(given.items), levels=eight(*levels), controls=eight(*controls))


def answer(given: Answer) -> bytes:
    """The octets of an answer, as those of a command."""
    _check_kind(Answer, given)
    return _write('answer', c.CAnswer, given, _array(c.CEntry, Entry, given.entries), len(given.entries))


def status(clear: int) -> bytes:
    """49, request module status: clears the flags whose bits are one."""
    return command(Command(constants.TYPE_STATUS, clear=clear))


def load_counter(load: int) -> bytes:
    """50: the number that the next line sync loads."""
    return command(Command(constants.TYPE_LOAD_COUNTER, load=load))


def configure_inputs(items: Sequence[ConfigurationItem]) -> bytes:
    """51: at most 255 items, of inputs below 128."""
    return command(Command(constants.TYPE_CONFIGURE_INPUTS, items=items))


def raw_inputs() -> bytes:
    """52."""
    return command(Command(constants.TYPE_RAW_INPUTS))


def filtered_inputs() -> bytes:
    """53."""
    return command(Command(constants.TYPE_FILTERED_INPUTS))


def poll(block: int) -> bytes:
    """54: the block with this number."""
    return command(Command(constants.TYPE_POLL, block=block))


def set_outputs(levels: Octets, controls: Octets) -> bytes:
    """55: eight octets each."""
    return command(Command(constants.TYPE_SET_OUTPUTS, levels=octets_of(levels), controls=octets_of(controls)))


def watchdog(timeout: int) -> bytes:
    """58: the timeout in milliseconds."""
    return command(Command(constants.TYPE_WATCHDOG, timeout=timeout))


def identify() -> bytes:
    """60."""
    return command(Command(constants.TYPE_IDENTIFY))
