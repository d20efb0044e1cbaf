"""The numbers, structs and calls of include/fio2070.h, as ctypes has them: read of the header itself, so that what the bindings
have made of it is not asked. A struct whose size is not the one that the header asserts is an error."""

import ctypes
import os
import re
from typing import NamedTuple

HEADER = os.path.join(os.path.dirname(os.path.realpath(__file__)), '../../include/fio2070.h')
TYPE = r'(?:struct fio2070_)?(\w+?)(?:_t)? '


class Parameter(NamedTuple):
    """A parameter of a call: its type, whether it is an address, whether of many, and whether of what the call only reads."""
    name: str
    kind: type
    is_address: bool
    is_array: bool
    is_const: bool


class Call(NamedTuple):
    """A call: what it returns, and its parameters."""
    result: type
    parameters: list


def structs_in(text, numbers):
    """The types of the header, by their names without prefix. The fields of a struct within a struct are its own."""
    kinds = {'uint8': ctypes.c_uint8, 'uint16': ctypes.c_uint16, 'uint32': ctypes.c_uint32, 'uint64': ctypes.c_uint64,
             'size': ctypes.c_size_t, 'char': ctypes.c_char, 'void': None}
    for name, body in re.findall(r'^struct fio2070_(\w+) \{\n(.*?)^\};', text, re.S | re.M):
        fields = []
        for kind, star, field, count in re.findall(r'^ +' + TYPE + r'(\*?)(\w+)(?:\[(?:FIO2070_)?(\w+)\])?;', body, re.M):
            kind = ctypes.POINTER(kinds[kind]) if star else kinds[kind]
            fields.append((field, kind * int(numbers.get(count, count)) if count else kind))
        kinds[name] = type(name, (ctypes.Structure,), {'_fields_': fields})
    for name, size in re.findall(r'sizeof\(struct fio2070_(\w+)\) == (\d+)', text):
        if ctypes.sizeof(kinds[name]) != int(size):
            raise ValueError('the layout of ' + name)
    return kinds


def calls_in(text, kinds):
    """The calls of the library, by their names without the prefix; the functions that the header defines are none."""
    calls = {}
    for result, name, given in re.findall(r'^' + TYPE + r'fio2070_(\w+)\(([^()]*)\);', text, re.M):
        parts = re.findall(r'(const )?' + TYPE + r'(\*?)(\w+)(\[\w+\])?(?:,|$)', given)
        calls[name] = Call(kinds[result], [Parameter(word, kinds[kind], bool(star or many), bool(many), bool(const))
                                           for const, kind, star, word, many in parts])
    return calls


with open(HEADER, encoding='ascii') as file:
    TEXT = re.sub(r'/\*.*?\*/', '', file.read(), flags=re.S)
NUMBERS = {name: int(number, 0) for name, number in re.findall(r'\bFIO2070_([A-Z0-9_]+)(?: =)? (0x[0-9a-f]+|\d+)\b', TEXT)}
STRUCTS = structs_in(TEXT, NUMBERS)
CALLS = calls_in(TEXT, STRUCTS)
