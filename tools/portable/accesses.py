"""The tests of accesses to memory. A number of the function is known as a base and a distance from it; accesses at fixed
distances from one base, each of which is made if the first is, are tested once for all of them."""

from typing import NamedTuple

# The base of constants.
NOTHING = 0


class Place(NamedTuple):
    """A number of 64 bits: a base, which represents a number that is not known, and what is added to it."""
    base: int
    distance: int


class Access(NamedTuple):
    """An access whose pointer is not chosen yet: its line has `mark` where the pointer will be."""
    line: int
    mark: str
    address: str
    place: Place
    size: int
    writes: bool
    depth: int
    # What the instruction adds to its address.
    offset: int

    def start(self):
        return self.place.distance + self.offset


class Tested(NamedTuple):
    """Octets that were tested: a pointer leads to the first. `depth` is the number of blocks that were open at the test."""
    base: int
    start: int
    end: int
    writes: bool
    pointer: str
    depth: int

    def covers(self, it):
        return (self.base == it.place.base and self.start <= it.start() and it.start() + it.size <= self.end
                and self.writes >= it.writes)


def span(these):
    """Returns where accesses with one base begin, how many octets they have, and whether one writes."""
    start, end = min(it.start() for it in these), max(it.start() + it.size for it in these)
    return start, end - start, any(it.writes for it in these)


class Accesses:
    """The accesses of a function, in their order."""

    def __init__(self):
        self.bases, self.sums, self.pointers = 0, {}, 0
        self.waiting, self.tested = [], []

    def fresh(self):
        """Returns a number of which nothing is known."""
        self.bases += 1
        return Place(self.bases, 0)

    def sum_of(self, one, other):
        if NOTHING not in (one.base, other.base):
            return self.sums.setdefault((one, other), self.fresh())
        whole = (one.distance + other.distance + 2 ** 63) % 2 ** 64 - 2 ** 63
        return Place(one.base or other.base, whole)

    def names(self):
        return ['p%d' % (n + 1) for n in range(self.pointers)]

    def pointer(self):
        self.pointers += 1
        return self.names()[-1]

    def add(self, line, address, place, size, writes, depth, offset):
        """Adds an access. Returns the mark that its line has for the pointer."""
        mark = '@%d@' % len(self.waiting)
        self.waiting.append(Access(line, mark, address, place, size, writes, depth, offset))
        return mark

    def frame(self, place, size, depth):
        """Tests all octets of the function's frame at once. Returns the pointer."""
        self.tested.append(Tested(place.base, place.distance, place.distance + size, True, self.pointer(), depth))
        return self.tested[-1].pointer

    def settle(self, lines):
        """Chooses the pointers of the accesses that wait: what follows is not made whenever they are."""
        for place, it in enumerate(self.waiting):
            found = self.find(it) or self.test(it, self.waiting[place:], lines)
            lines[it.line] = lines[it.line].replace(it.mark, '%s + %d' % (found.pointer, it.start() - found.start))
        self.waiting = []

    def settle_turns(self, loop, turns, lines):
        """Chooses the pointers of the accesses of a straight loop whose address is that of the turn before plus a step: they
        are tested before the loop, up to those of the last turn. Returns what moves them on between turns."""
        found = []
        for first in self.waiting if turns else []:
            name, step = loop.name_of(first.place.base), loop.steps.get(first.place.base, 0)
            these = [it for it in self.waiting if it.place.base == first.place.base]
            if not name or step <= 0 or self.find(first) or first not in self.waiting:
                continue
            start, size, writes = span(these)
            pointer = self.pointer()
            address = '%s + UINT64_C(%d)' % (name[0], (start - name[1]) % 2 ** 64)
            test = '%s = %s(%s, m, run(%du, %du, %s));' % (
                pointer, 'write_at' if writes else 'read_at', address, size, step, turns)
            lines[loop.line] = test + '\n' + lines[loop.line]
            for it in these:
                lines[it.line] = lines[it.line].replace(it.mark, '%s + %d' % (pointer, it.start() - start))
            self.waiting = [it for it in self.waiting if it not in these]
            found.append('%s += %d;' % (pointer, step))
        return found

    def find(self, it):
        return next((tested for tested in self.tested if tested.covers(it)), None)

    def test(self, first, others, lines):
        """Writes one test before the first of some accesses, for all of them that have its base."""
        these = [it for it in others if it.place.base == first.place.base and not self.find(it)]
        start, size, writes = span(these)
        found = Tested(first.place.base, start, start + size, writes, self.pointer(), first.depth)
        self.tested.append(found)
        address = first.address
        if start != first.place.distance:
            address += ' + UINT64_C(%d)' % ((start - first.place.distance) % 2 ** 64)
        test = '%s = %s(%s, m, %du);' % (found.pointer, 'write_at' if writes else 'read_at', address, size)
        lines[first.line] = test + '\n' + lines[first.line]
        return found

    def leave(self, depth, is_joined):
        """Ends a block that is open at this depth. If branches reach its end too, what was tested in it is not tested
        there."""
        if is_joined:
            self.tested = [it for it in self.tested if it.depth < depth]
        else:
            self.tested = [it._replace(depth=min(it.depth, depth - 1)) for it in self.tested]
            self.waiting = [it._replace(depth=min(it.depth, depth - 1)) for it in self.waiting]
