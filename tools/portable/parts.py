"""What each call of the module reaches: its functions, and its octets of the module's read-only data. So a linker can leave
out what no call of a program needs, and a macro a whole part."""

from typing import NamedTuple

# The calls whose names begin so are left out if the macro is defined.
CAN_BE_LEFT_OUT = {'fio2070_log_': 'FIO2070_NO_LOG'}


def macro_of(calls):
    """Returns the macro that leaves all these calls out, None if there is none."""
    macros = {next((macro for start, macro in CAN_BE_LEFT_OUT.items() if call.startswith(start)), None) for call in calls}
    return macros.pop() if len(macros) == 1 else None


def reached(functions, index, found=None):
    """Returns the functions that a call of this one reaches."""
    found = set() if found is None else found
    if index not in found:
        found.add(index)
        for below in functions[index].calls:
            reached(functions, below, found)
    return found


class Table(NamedTuple):
    """Octets of the data, from this address on, and the calls that read them."""
    first: int
    octets: bytes
    calls: list


class Data:
    """The read-only data. An object begins where an instruction or a pointer in the data leads, and nothing says where it
    ends: what a call reads is taken to be all from its first object to the next one after its last. Between them the linker may
    put objects that only calls of another part name: the call does not read these, so what they lead to is not its own."""

    def __init__(self, address, octets, functions):
        self.address, self.octets, self.end = address, octets, address + len(octets)
        self.starts = self.pointers(address, self.end).union(*(self.named(it) for it in functions))

    def number_at(self, address):
        return int.from_bytes(self.octets[address - self.address:][:8], 'little')

    def named(self, function):
        """Returns the addresses of data that the instructions of a function have."""
        return {number for number in function.numbers if self.address <= number < self.end}

    def pointers(self, first, end, foreign=frozenset()):
        """Returns where the numbers between these addresses may lead, but for those in objects that begin at foreign ones: one that
        is an address of data leads there and, if the number after it may be a length, to the last octet of that length. An empty
        text at the end of another leads nowhere."""
        pairs = [(self.number_at(place), self.number_at(place + 8)) for place in range(first + -first % 8, end - 7, 8)
                 if not foreign or max([it for it in self.starts if it <= place], default=first) not in foreign]
        pairs = [(start, length if length <= self.end - start else 0) for start, length in pairs if self.address <= start < self.end]
        ends = {start + length for start, length in pairs if length > 0}
        return {it for start, length in pairs if length > 0 or start not in ends for it in (start, start + max(length, 1) - 1)}

    def span(self, names, foreign):
        """Returns the first address and the end of what begins at these addresses, and of all that it leads to."""
        while True:
            first, end = min(names), min([it for it in self.starts if it > max(names)], default=self.end)
            further = names | self.pointers(first, end, foreign)
            if further == names:
                return first, end
            names = further

    def tables(self, names_of):
        """Returns tables for the names that each call has. Those of calls that are left out together have no octet in common;
        with those of others they may share a few, since instructions also have addresses at which they read nothing."""
        found, foreign = [], {}
        for macro in {macro_of([call]) for call in names_of}:
            own, others = (set().union(*(names for call, names in names_of.items() if (macro_of([call]) == macro) == is_own))
                           for is_own in (True, False))
            foreign[macro] = others - own
        spans = [(self.span(names, foreign[macro_of([call])]), call) for call, names in names_of.items() if names]
        for (first, end), call in sorted(spans):
            above = next((it for it in reversed(found) if macro_of(it[2]) == macro_of([call])), None)
            if above and first < above[1]:
                above[1] = max(end, above[1])
                above[2].append(call)
            else:
                found.append([first, end, [call]])
        nexts = [first for first, _, _ in found[1:]] + [self.end]
        return [Table(first, self.octets[first - self.address:max(end, further) - self.address], calls)
                for (first, end, calls), further in zip(found, nexts)]


class Part(NamedTuple):
    """Calls that are left out together, if their macro is defined, with what they alone need."""
    macro: str
    exports: list
    functions: list
    tables: list


def parts_of(module, functions):
    """Returns the parts of the module, that which is never left out first."""
    reach = {name: reached(functions, index) for name, index in module.exports}
    data = Data(*module.data, functions)
    tables = data.tables({name: set().union(*(data.named(functions[it]) for it in found)) for name, found in reach.items()})
    users = [[name for name, found in reach.items() if index in found] for index, _ in enumerate(functions)]
    return [Part(macro, [it for it in module.exports if macro_of([it[0]]) == macro],
                 [it for it, calls in zip(functions, users) if calls and macro_of(calls) == macro],
                 [it for it in tables if macro_of(it.calls) == macro]) for macro in [None, *CAN_BE_LEFT_OUT.values()]]
