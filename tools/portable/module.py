"""The binary format of a WebAssembly module, read as far as the translator takes it."""

import re


class Refused(Exception):
    """What the module has that this cannot translate."""


class Octets:
    """A reader of the binary format."""

    def __init__(self, octets, place=0, end=None):
        self.octets, self.place, self.end = octets, place, len(octets) if end is None else end

    def copy(self):
        return Octets(self.octets, self.place, self.end)

    def octet(self):
        self.place += 1
        return self.octets[self.place - 1]

    def number(self, signed=False):
        shift = result = 0
        while True:
            it = self.octet()
            result |= (it & 127) << shift
            shift += 7
            if it < 128:
                return result - (1 << shift) if signed and it & 64 else result

    def take(self, count):
        self.place += count
        return self.octets[self.place - count:self.place]

    def text(self):
        return self.take(self.number()).decode()

    def sub(self):
        count = self.number()
        return Octets(self.octets, self.place, self.place + count), self.take(count)


def c_name(name):
    """Returns a name of the module as one of C: without paths and marks."""
    name = name.replace('rattle::export fio2070_', 'proved_')
    return re.sub(r'\W+', '_', re.sub(r'<#\w+>', '', name)).strip('_')


# The sections by their numbers; those without a name are not read: what is in tables is called by instructions that are refused.
SECTIONS = {0: 'custom', 1: 'type', 3: 'function', 4: None, 5: 'memory', 6: 'global', 7: 'export', 9: None, 10: 'code', 11: 'data',
            12: None}


class Module:
    """A module, read."""

    def __init__(self, octets):
        self.types, self.functions, self.globals, self.exports, self.codes = [], [], [], [], []
        self.names, self.c_names, self.data = {}, {}, None
        if octets[:8] != b'\0asm\1\0\0\0':
            raise Refused('no WebAssembly module of version 1')
        reader = Octets(octets, 8)
        while reader.place < len(octets):
            number = reader.octet()
            section, _ = reader.sub()
            if number not in SECTIONS:
                raise Refused('the module has a section of number %d' % number)
            if SECTIONS[number]:
                getattr(self, 'read_' + SECTIONS[number])(section)

    def read_custom(self, it):
        if it.text() != 'name':
            return
        while it.place < it.end:
            kind = it.octet()
            inner, _ = it.sub()
            if kind == 1:
                for _ in range(inner.number()):
                    index = inner.number()
                    self.names[index] = inner.text()

    def read_type(self, it):
        for _ in range(it.number()):
            if it.octet() != 0x60:
                raise Refused('a type that is no function type')
            self.types.append(tuple([it.octet() for _ in range(it.number())] for _ in range(2)))

    def read_function(self, it):
        self.functions = [it.number() for _ in range(it.number())]

    def read_memory(self, it):
        if it.number() != 1 or not it.octet() & 4:
            raise Refused('a memory that is not one of 64 bits')

    def read_global(self, it):
        for _ in range(it.number()):
            kind, mutable, op = it.octet(), it.octet(), it.octet()
            if op not in (0x41, 0x42):
                raise Refused('a global with a computed value')
            self.globals.append((kind, mutable, it.number(signed=True)))
            it.octet()

    def read_export(self, it):
        for _ in range(it.number()):
            name, kind, index = it.text(), it.octet(), it.number()
            if kind == 0:
                self.exports.append((name, index))

    def read_code(self, it):
        for _ in range(it.number()):
            body, _ = it.sub()
            self.codes.append(body)

    def read_data(self, it):
        if it.number() != 1 or it.number() != 0 or it.octet() != 0x42:
            raise Refused('more than one data segment')
        address = it.number(signed=True)
        it.octet()
        self.data = (address, it.take(it.number()))

    def name_of(self, index):
        """Returns the name of a function in C. An export has its own, after `enter_`."""
        if index not in self.c_names:
            name = c_name(self.names.get(index, 'function'))
            if name.startswith('fio2070_'):
                name = 'enter_' + name[len('fio2070_'):]
            if name in self.c_names.values():
                name += '_%d' % index
            self.c_names[index] = name
        return self.c_names[index]
