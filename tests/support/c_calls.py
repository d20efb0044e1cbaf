"""Calls of the library for C by words, with what the header says of all calls required of each: nothing is written beyond its
room or into what is only read; with too little room the same count is returned and nothing changes; a start sets each octet of its
struct, or none; what is reserved is 0, and is not read; a struct may be moved.

The words of a call are its arguments in order: a number, or the name of a constant; octets in hexadecimal, where `30*3` is short
for `303030`, `+` joins, and `..` is as many zeros as make eight octets; `FIELD VALUE ..` for a struct; `12/0/5/3` for an item of a list, `*3` after it for three of them. What
is missing has length 0, and a null pointer. The struct that a call keeps is that of the call before; a part of a batch is kept beside
the batch. `room N` at the end is how
much room there is; without it there is as much as is needed. What a call says is what it returns and writes, in this form: zeros
and what is not written are left out, and a number that the struct begins with which is written."""

import ctypes

from c_header import CALLS, NUMBERS

GUARD, FILL, MOST = 64, 0xa5, 20480
# The structs that are kept from call to call, by the name of the type.
KEPT = {call.parameters[0].kind.__name__ for name, call in CALLS.items() if '_start' in name} | {'log_batch'}
# The counts that are more than any room, by what they say.
NO_COUNTS = {ctypes.c_size_t(-1 - place).value: said for place, said in enumerate(('no message', 'not awaited', 'other awaited', 'body too long'))}


class Broken(Exception):
    """What does not hold that the header says of each call."""


def require(holds, otherwise):
    if not holds:
        raise Broken(otherwise)


class Memory:
    """Room for values of a type between octets that no call may write."""

    def __init__(self, kind, count=1, fill=FILL):
        self.kind, self.fill = kind, bytes([fill])
        self.octets = bytearray(self.fill * (2 * GUARD + count * ctypes.sizeof(kind)))
        self.values = (kind * count).from_buffer(self.octets, GUARD)

    def moved(self):
        """The same values elsewhere; here they are gone."""
        other = Memory(self.kind, len(self.values), self.fill[0])
        other.octets[:], self.octets[:] = self.octets, bytes(len(self.octets))
        return other

    def is_unwritten(self, count=0):
        """Whether no octet after this many values was written, and none before all."""
        end = GUARD + count * ctypes.sizeof(self.kind)
        return not self.octets[:GUARD].strip(self.fill) and not self.octets[end:].strip(self.fill)


def number(word):
    return NUMBERS[word] if word in NUMBERS else 2**64 - 1 - int(word[1:], 0) if word[0] == '~' else int(word, 0)


def octets(word):
    """Octets in hexadecimal, without `..`, `*` and `+`."""
    first, _, last = word.partition('..')
    parts = [part.partition('*') for part in word.split('+')]
    return first + last.rjust(16 - len(first), '0') if '..' in word else ''.join(part * int(times or 1) for part, _, times in parts)


def struct_of(kind, words):
    """A struct from its words."""
    it, kinds = kind(), dict(kind._fields_)
    while words and words[0] in kinds:
        name = words.pop(0)
        if issubclass(kinds[name], ctypes.Structure):
            setattr(it, name, struct_of(kinds[name], words))
        else:
            word = words.pop(0)
            setattr(it, name, kinds[name](*bytes.fromhex(word)) if issubclass(kinds[name], ctypes.Array) else number(word))
    return it


def list_of(parameter, words):
    """A list from its words: an array, or None if it is empty."""
    found = []
    if parameter.kind is not ctypes.c_uint8:
        while words and '/' in words[0]:
            item, _, times = words.pop(0).partition('*')
            found += [parameter.kind(*map(int, item.split('/')))] * int(times or 1)
    elif words and words[0] != 'room':
        word = octets(words.pop(0))
        found = word.encode() if parameter.name == 'line' and not word.strip('01') else bytes.fromhex(word)
    return (parameter.kind * len(found))(*found) if found else None


def words_of(it, unsaid=()):
    """The words of a number or of a struct: of its fields that are not 0."""
    if not isinstance(it, ctypes.Structure):
        return [str(it)] if it else []
    said = []
    for name, kind in it._fields_:
        value = getattr(it, name)
        if name in unsaid or type(it).__name__ == 'judge_outcome' and name == 'input' and value == NUMBERS['NO_INPUT']:
            continue
        if isinstance(value, ctypes.Array) and kind._type_ is ctypes.c_uint8:
            octets_of = bytes(value)[:getattr(it, name + '_length', None)]      # what is after them need not be written
            said += [name, octets_of.hex()] if any(octets_of) else []
        elif isinstance(value, ctypes.Array) and issubclass(kind._type_, ctypes.Structure):
            said += [name, *(word for one in value[:it.count] for word in words_of(one))]
        elif isinstance(value, ctypes.Array):
            said += [word for place, one in enumerate(value) if one for word in (name, str(place), str(one))]
        else:
            inner = words_of(value)
            said += [name, *inner] if inner else []
    return said


def words_of_list(kind, values):
    """The words of octets, of a text, or of items."""
    if kind is ctypes.c_char:
        return [bytes(values).decode().replace('\n', '~')]
    if kind is ctypes.c_uint8:
        return [bytes(values).hex()]
    return ['/'.join(str(getattr(one, name)) for name, _ in kind._fields_ if name != 'reserved') for one in values]


def reserved(it):
    """The octets of a struct that are reserved."""
    for name, kind in it._fields_:
        if name == 'reserved':
            yield from bytes(kind.from_buffer(it, getattr(type(it), name).offset))
        elif issubclass(kind, ctypes.Structure):
            yield from reserved(getattr(it, name))


class Run:
    """Calls of a library with the structs that they keep. `called` gets the names of the calls."""

    def __init__(self, library, called):
        self.library, self.called, self.kept, self.slots = library, called, {}, None
        self.written = {}   # the latest array of each kind that a call wrote

    def call(self, name, *words):
        """What a call says of these words, as one text."""
        self.kept.update({kind: memory.moved() for kind, memory in self.kept.items() if len(memory.octets) < 10000})
        self.slots = self.slots and self.slots.moved()
        said = self.start(name, words) if '_start' in name else self.call_once(name, list(words))
        require(not self.slots or self.slots.is_unwritten(len(self.slots.values) - 1), 'a slot is written beyond the limit')
        require(not any(any(reserved(one.values[0])) and not one.is_unwritten() for one in self.kept.values()), 'what is reserved is not 0')
        return said

    def start(self, name, words):
        """A start sets each octet, whatever was there; one that is refused sets none."""
        kind, ends = CALLS[name].parameters[0].kind, []
        for fill in (FILL ^ 0xff, FILL):
            kept = self.kept[kind.__name__] = Memory(kind, fill=fill)
            said = self.call_once(name, list(words))
            ends.append(bytes(kept.values))
        require(not said or kept.is_unwritten(), 'a start that is refused writes')
        require(said or ends[0] == ends[1] or kind.__name__ == 'log_reader', 'a start leaves an octet as it was')
        return said

    def value(self, kind, words):
        """An argument that is no address."""
        if kind.__name__ == 'limits':
            limits = kind(number(words.pop(0)), number(words.pop(0)), FILL)
            # One slot more than may be used.
            self.slots = Memory(CALLS['sized_module_scan'].parameters[1].kind._fields_[0][1]._type_, limits.waiting + 1)
            return limits
        if kind.__name__ == 'ring':
            return kind(self.slots.values, len(self.slots.values))
        return kind(number(words.pop(0)))

    def call_once(self, name, words):
        """What a call says, which moves nothing."""
        given, out, has_room = [], None, False
        for one, after in zip(CALLS[name].parameters, [*CALLS[name].parameters[1:], None]):
            has_count = after and after.name in ('length', 'count')
            if not one.is_address:
                given += [] if one.name in ('length', 'count', 'room') else [self.value(one.kind, words)]
            elif one.kind.__name__ in KEPT:
                given.append(self.kept.setdefault(one.name if one.name == 'part' else one.kind.__name__, Memory(one.kind)).values)
            elif one.is_const and has_count:
                values = list_of(one, words)
                given += [values, ctypes.c_size_t(len(values or ()))]
            elif one.is_const and one.is_array:
                given.append(self.written[one.kind.__name__].values)
            elif one.is_const:
                given.append((one.kind * 1)(struct_of(one.kind, words)))
            else:
                out, has_room = one, after and after.name == 'room'
        room = number(words[1]) if words[:1] == ['room'] else None
        require(len(words) == 2 * (room is not None), 'words that are no arguments: %s' % words)
        said = self.listing(name, given, out.kind, room) if has_room else self.writing(name, given, out)
        return ' '.join(filter(None, said))

    def invoke(self, name, given):
        """Calls; what the call only reads, and what is around what it keeps, is as before."""
        self.called.add(name)
        read = [values for one, values in zip(CALLS[name].parameters, given) if one.is_const and values is not None]
        before = list(map(bytes, read))
        function = getattr(self.library, 'fio2070_' + name)
        function.restype = CALLS[name].result
        result = function(*given)
        require(before == list(map(bytes, read)), 'what is only read is written')
        require(all(memory.is_unwritten(1) for memory in self.kept.values()), 'written beyond the struct')
        return result

    def listing(self, name, given, kind, room):
        """The words of a call that writes a list. A text has a zero octet more than it counts."""
        end, is_struct = int(kind is ctypes.c_char), issubclass(CALLS[name].result, ctypes.Structure)
        if room is None:
            room = MOST if is_struct else self.needed(name, given, kind, end)
        memory = Memory(kind, MOST)
        result = self.invoke(name, [*given, memory.values if room else None, ctypes.c_size_t(room)])
        count = result if not is_struct else result.items if result.kind == NUMBERS['HEARD_TAKEN'] else 0
        fits = count + end <= room
        require(memory.is_unwritten(count + end if fits else 0), 'written beyond the room or the count')
        require(not (fits and end) or memory.values[count] == b'\0', 'a text does not end in a zero octet')
        if fits:
            return [*(words_of(result) if is_struct else []), *words_of_list(kind, memory.values[:count])]
        return [NO_COUNTS[result]] if result in NO_COUNTS else ['needs', str(result + end)]

    def needed(self, name, given, kind, end):
        """How much room a call needs: with none, and with a little less, it returns the same and changes nothing."""
        before = {kind: bytes(memory.octets) for kind, memory in self.kept.items()}
        count = self.invoke(name, [*given, None, ctypes.c_size_t(0)])
        if not 0 < count + end <= MOST:
            return MOST
        memory = Memory(kind, count + end)
        again = self.invoke(name, [*given, memory.values, ctypes.c_size_t(count + end - 1)])
        require(again == count and memory.is_unwritten(), 'too little room changes the count, or is written')
        require(before == {kind: bytes(memory.octets) for kind, memory in self.kept.items()}, 'with too little room something changes')
        return count + end

    def writing(self, name, given, out):
        """The words of a call that writes one value, or as many as it returns, or none."""
        if out is None:
            return words_of(self.invoke(name, given))
        memory = Memory(out.kind, MOST if out.is_array else 1)
        if out.is_array:
            self.written[out.kind.__name__] = memory
        result = self.invoke(name, [*given, memory.values])
        require(memory.is_unwritten(result if out.is_array else 1), 'written beyond the count')
        if out.is_array:
            return [', '.join(' '.join(words_of(one)) or '0' for one in memory.values[:result])]
        value, said = memory.values[0], words_of(result)
        if memory.is_unwritten():
            return said
        if not isinstance(value, ctypes.Structure):
            return [*said, out.name, str(value)] if value else said
        return [*(said if result != getattr(value, value._fields_[0][0]) else []), *words_of(value)]
