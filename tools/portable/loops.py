"""Loops with no way out but their end: each turn makes each access. If the number of turns is known as the loop begins, the
accesses at an address that moves by the same distance in each turn are tested there, all at once: the octets from those of
the first turn to those of the last."""

from typing import NamedTuple

from accesses import NOTHING, Place
from ahead import pass_over

BRANCH_IF, END = 0x0D, 0x0B
# Instructions that lead elsewhere, and those that change more than locals and the octets that they name.
LEAVE = (0x00, 0x02, 0x03, 0x04, 0x05, 0x0C, 0x0E, 0x0F, 0x10, 0x24, 0xFC)


class Comparison(NamedTuple):
    """Whether two numbers are the same, or whether they are not."""
    one: Place
    other: Place
    is_same: bool

    def opposite(self):
        return self._replace(is_same=not self.is_same)


def is_straight(it):
    """Returns whether the loop that begins here ends in a branch to its beginning, and has no other branch and no call."""
    ahead = it.copy()
    while True:
        op = ahead.octet()
        if op in LEAVE or op == END:
            return False
        if op == BRANCH_IF:
            return ahead.number() == 0 and ahead.octet() == END
        pass_over(ahead, op)


class Loop:
    """A straight loop: its line, the bases of locals as it begins, and how far it moves each base."""

    def __init__(self, line, places, assigned):
        self.line, self.places, self.assigned = line, places, assigned
        self.steps = {}

    def measure(self, places):
        """Notes what the locals are at the end of a turn."""
        for index, place in enumerate(self.places):
            if index not in self.assigned:
                self.steps.setdefault(place.base, 0)
            elif places[index].base == place.base:
                self.steps[place.base] = places[index].distance - place.distance

    def name_of(self, base):
        """Returns what is added to the number in a local to come to this base, and the local."""
        return next((('v%d' % index, place.distance) for index, place in enumerate(self.places) if place.base == base), None)

    def turns(self, condition):
        """Returns how many turns there are, in C, if the loop goes on as long as this holds; nothing if that is not known."""
        if not isinstance(condition, Comparison) or condition.is_same:
            return None
        for moved, end in ((condition.one, condition.other), (condition.other, condition.one)):
            step = self.steps.get(moved.base, 0) if moved.base != NOTHING else 0
            there = None if step == 0 else self.text_of(end)
            # The number is compared after it has moved.
            if there and moved.distance == self.places_of(moved.base).distance + step:
                name = self.name_of(moved.base)[0]
                return 'turns(%s, %s, %du)' % ((name, there, -step) if step < 0 else (there, name, step))
        return None

    def places_of(self, base):
        return next(place for place in self.places if place.base == base)

    def text_of(self, place):
        """Returns a number that no turn changes."""
        if place.base == NOTHING:
            return 'UINT64_C(%d)' % (place.distance % 2 ** 64)
        same = [index for index, it in enumerate(self.places) if it == place and index not in self.assigned]
        return 'v%d' % same[0] if same else None
