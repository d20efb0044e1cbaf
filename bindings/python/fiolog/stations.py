"""The stations of a line: each has its judge, which gets the station's frames, and the lines that may have held a frame of any."""

import copy
import functools
from collections import Counter
from itertools import compress
from operator import itemgetter

import fio2070
from fio2070.constants import LOG_SAYS

from .answer import Said
from .event import LOSSES
from .counts import Counts
from .line import words_of
from .log_numbers import STATIONS
from .message import TYPE_ANSWER
from .rules import LOST_LINES

# The address of all stations, which none answers to.
BROADCAST = b'\xff'
# In batches of so few frames a command and its answer may be in two.
SMALL = 64
# What is counted of lines, whoever sent them.
OF_LINES = 'damaged_lines', *LOST_LINES.values()


class Addresses:
    """The addresses before messages, and which of them are stations'."""

    def __init__(self):
        self.known, self.seen = set(), set()    # those of stations, and all
        self.same, self.others = Counter(), 0   # how many answers have the address of the command above, and how many another
        self.frames, self.count = Counter(), 0  # how many frames have one that is not known, and how many there are
        self.above = 0, b''     # the type of the frame above, and its address

    def take(self, batch):
        """Takes lines."""
        self.count += batch.count
        lengths = batch.said.header_lengths
        if not any(lengths) and not self.seen:
            return
        is_quick = batch.is_plain and 0 not in lengths
        found = {bytes([address]) for address in set(batch.said.addresses)} if is_quick else set(batch.addresses())
        self.seen |= found
        new = found - self.known - {b'', BROADCAST}
        if new or batch.count < SMALL:
            addresses = batch.addresses()
            self._compare(zip(batch.said.types(), addresses))
            self.frames.update(addresses)
            self.known.update(one for one in new if len(self.known) < STATIONS['most'] and self._is_stations(one))

    def _is_stations(self, address):
        """Whether an address is a station's."""
        frames = self.frames[address]
        return self.same[address] > 0 or frames >= STATIONS['silent'] and STATIONS['share'] * frames >= self.count

    def _compare(self, frames):
        """Takes the type of each frame, and its address."""
        above = self.above
        for frame in frames:
            if frame[0] == above[0] + TYPE_ANSWER:
                self.same[frame[1]] += frame[1] == above[1]
                self.others += frame[1] != above[1]
            above = frame
        self.above = above

    @property
    def are_several(self):
        """Whether frames have several addresses, of which one is a station's."""
        return bool(self.known) and 1 < len(self.seen - {b''}) <= STATIONS['most'] and sum(self.same.values()) > STATIONS['odd'] * self.others


class Unjudged:
    """In place of a Judgement, of a log that is counted alone: it sees what kind of log that is."""

    def __init__(self):
        self.stations, self.unjudged, self._signs = {''}, Counter(), fio2070.LogSigns()

    def take(self, batch):
        """Takes lines; finds nothing."""
        self._signs.batch(batch.said, batch.as_said)
        return ()

    @property
    def sign(self):
        """What kind of log it looks like, as a Judgement says it."""
        return self._signs.sign


class Stations:
    """Judges a log as a Judgement does: each of several stations by itself, as if the log had its frames alone; or all frames as of one
    link, if they have one address or none, or addresses that are no stations'. `made` returns a new Judgement, and `counts` are of the
    lines above those that are taken. `seen` is called with all lines, those of a station, what judges it, and what that found in them."""

    def __init__(self, made, counts, seen=lambda batch, part, judgement, found: None):
        self.alone, self.without = made(), made()   # what judges one link; and what has the lines alone that may have held a frame
        self.parts, self.counts, self.broken = {}, {}, {}   # by its address of each station what judges it, and what is counted of it
        self.lines, self.others = Counter(), Counter()      # lines that may have held a frame, and frames that are judged for none
        self.addresses, self._above, self._seen = Addresses(), counts, seen

    def __getattr__(self, name):
        return getattr(self.alone, name)

    @property
    def judgements(self):
        """What judges each station."""
        return list(self.parts.values()) or [self.alone]

    @property
    def unjudged(self):
        """What is not judged, by its reason. A line that may have held a frame is counted once."""
        if not self.parts:
            return self.alone.unjudged
        found = sum((part.unjudged for part in self.parts.values()), Counter())
        return Counter({**found, **self.lines, 'frames_of_others': sum(self.others.values())})

    def total(self, counts):
        """What is counted of all stations; `counts` if there is one link."""
        return sum(self.counts.values(), Counts()) if self.parts else counts

    def answers(self, counts):
        """What is said of the transitions of each station, or of one link."""
        parts = [(address.hex().upper(), self.parts[address], self.counts[address]) for address in sorted(self.parts)]
        return [Said(address, part.answer, of_it.unanswered, of_it.repeats) for address, part, of_it in parts or [('', self.alone, counts)]]

    def rows(self):
        """Of each station what is said of it in short, by its address."""
        return {address.hex().upper(): self._row(address, self.parts[address]) for address in sorted(self.parts)}

    def _row(self, address, part):
        """What is said of a station in short."""
        broken = self.broken[address]
        breaches, restarts = part.is_fit * (broken[False, False] + broken[False, True] * (not part.leaves_out)), part.is_fit * broken[True, False]
        return {**self.counts[address].in_short(), 'breaches': breaches, **({'restarted': restarts} if restarts else {})}

    def take(self, batch):
        """Takes lines; returns each breach and restart that is certain now: the frame at which it is, the event, and it."""
        seen = set(self.addresses.seen)
        self.addresses.take(batch)
        if not self.parts:
            if not self.addresses.are_several:
                if self.addresses.seen:
                    self._take_without(batch)
                told = self.alone.take(batch)
                self._seen(batch, batch, self.alone, told)
                return told
            self._part(seen.pop() if len(seen) == 1 else b'')
        return self._taken(batch)

    def end(self):
        """Returns the other breaches and restarts, at the end of the log."""
        if not self.parts:
            return self.alone.end()
        told = [(address, *one) for address, part in self.parts.items() for one in part.end()]
        for address, part in self.parts.items():
            part.words = part.words and 'address %s: %s' % (address.hex().upper(), part.words)
        return [(self._named(address, event, found), found) for address, event, found in told]

    def _part(self, first):
        """Begins to judge each station by itself: all frames above had this address, or none or several."""
        self.lines = Counter({name: self.alone.unjudged[name] for name in OF_LINES})
        if first:
            self._add(first, self.alone, copy.deepcopy(self._above))

    def _add(self, address, judgement, counts):
        """Adds a station."""
        self.parts[address], self.counts[address], self.broken[address] = judgement, counts, Counter()
        judgement.stations = {address.hex().upper()} | ({''} if judgement is self.alone else set())

    def _named(self, address, event, found):
        """The event of what is found, with its station."""
        self.broken[address][found.is_restart, found.is_step] += 1
        return event._replace(station=address.hex().upper())

    def _take_without(self, batch):
        """Takes the lines that may have held a frame."""
        lost = _lost_in(batch)
        for part in batch.parts([_with_lost(bytes(len(batch.kinds)), lost, batch.kinds)]) if lost else ():
            self.without.take(part)

    def _taken(self, batch):
        """What is found in lines of several stations."""
        masks, lost = _masks_of(batch), _lost_in(batch)
        self.lines.update(LOST_LINES.get(event.kind, 'damaged_lines') for _, event in batch.others if event.kind in LOSSES)
        for address in masks.keys() - self.addresses.known:
            lines, headers = list(compress(range(len(batch.kinds)), masks.pop(address))), batch.said.headers()
            self.others.update(words_of(headers[line]) for line in lines)
            lost.update(lines if address != BROADCAST else ())
        for address in masks.keys() - self.parts.keys():
            self._add(address, copy.deepcopy(self.without), Counts())
        if lost:
            self._take_without(batch)
            masks = {address: _with_lost(masks.get(address, bytes(len(batch.kinds))), lost, batch.kinds) for address in self.parts}
        told = []
        for part, address in zip(batch.parts([*masks.values()]), masks):
            found_here = [(frame, self._named(address, event, found), found) for frame, event, found in self.parts[address].take(part)]
            told += [(batch.frame_in(part, frame), *one) for frame, *one in found_here]
            self.counts[address].take(part)
            self._seen(batch, part, self.parts[address], found_here)
        return sorted(told, key=itemgetter(0))


@functools.lru_cache(maxsize=None)
def _only(address):
    """What makes a mask of the lines with an address."""
    return bytes(one == address for one in range(256))


def _masks_of(batch):
    """By its address of each station the mask of the lines that give its frames."""
    addresses, lengths = batch.said.addresses, batch.said.header_lengths
    if batch.is_plain and 0 not in lengths:
        return {bytes([address]): addresses.translate(_only(address)) for address in set(addresses)}
    masks = {}
    for line in batch.lines_of_frames():
        masks.setdefault(addresses[line:line + (lengths[line] > 0)], bytearray(len(batch.kinds)))[line] = 1
    return masks


def _lost_in(batch):
    """The lines at which judges may lose their place."""
    return {line for line, event in batch.others if event.is_loss}


def _with_lost(mask, lost, kinds):
    """A mask, with these lines too: those that give frames are taken as damaged."""
    mask = bytearray(mask)
    for line in lost:
        mask[line] = mask[line] or (2 if kinds[line] == LOG_SAYS else 1)
    return bytes(mask)
