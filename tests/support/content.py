"""The rules on content, as an independent model: what `fio2070 record` writes for a transcript that keeps the rules of
`check`. It goes over the lines once, as docs/FORMATS.md states the rules, and shares nothing with the program."""

import struct

WIDE = 1 << 32
ALL = frozenset(range(64))
BLOCK_END = 64                                 # in place of an input, above each of them


def lines_of(text):
    """The frames of a transcript: the number of the line, whether the CPU sent it, and its octets."""
    for number, line in enumerate(text.split('\n'), 1):
        if line and not line.startswith('#'):
            yield number, line[0] == '>', bytes.fromhex(line[2:])


def is_before(time, other):
    """Whether a time is before another: it is not less than 2^31 ahead of it."""
    return (time - other) % WIDE >= WIDE // 2


class Record:
    """The record of a transcript's CPU, and the first breach of a rule on content. With `begun`, both ends begin with the
    first line; without it what is heard above the first command is passed over."""

    def __init__(self, text, begun=False):
        self.items, self.breach, self.number = [], None, None
        self.command, self.watchdog = b'', False
        self.excuses = 0
        self.asked, self.since = False, set()
        self.clock, self.floor, self.full, self.seen = None, None, None, None
        self.levels, self.times, self.watched, self.shaded = {}, {}, set(), set()
        self.clear, self.timely, self.hidden, self.reopened, self.touched = False, False, set(), set(), set()
        self.told, self.unlogged, self.heard = {}, set(), begun
        self.last, self.taken, self.shut = {}, set(), set()
        self.least = {named: (1, 1) for named in ALL}
        if begun:
            self.clock, self.floor, self.full, self.taken, self.shut = 0, (0, BLOCK_END), 0, set(ALL), set(ALL)
            self.clear = self.timely = True
            self.last = {named: (True, 5, 5) for named in ALL}
            self.least = {named: (5, 5) for named in ALL}
        for self.line, sent, octets in lines_of(text):
            begun = begun or sent
            if not begun:
                continue
            (self.send if sent else self.hear)(octets)
            if self.breach:
                break

    def send(self, octets):
        """Takes a command."""
        self.command = octets
        if octets[0] == 54 and self.number is None:
            self.number = octets[1]
        if octets[0] == 54 and not self.asked:
            self.asked, self.since = True, set()
        if octets[0] == 50:
            self.excuses = min(255, self.excuses + 1)
        items = {octets[at] & 127: octets[at:at + 3] for at in range(2, len(octets), 3)} if octets[0] == 51 else {}
        for named, item in items.items():          # of each input the last one counts
            if named in ALL:
                self.configure(named, item[0] > 127, item[1], item[2])

    def configure(self, named, ignore, leading, trailing):
        """Takes the item of an input that counts."""
        self.last[named] = ignore, leading, trailing
        self.least[named] = min(self.least[named][0], leading), min(self.least[named][1], trailing)
        self.taken.discard(named)
        self.touched.add(named)
        self.since.add(named)
        self.told.pop(named, None)
        self.unlogged.discard(named)
        if ignore:
            self.hidden.add(named)
            self.shaded.add(named)
            return
        self.shut.discard(named)
        if named in self.hidden:
            self.reopened.add(named)
        if named in self.shaded:
            self.watched.discard(named)

    def hear(self, octets):
        """Takes an answer; a block answer only if it has the CPU's number."""
        kind, status = octets[0], octets[-1]
        if kind == 182 and octets[1] != self.number:
            return
        if kind == 178 and status & 1:
            return self.breaks('done')
        if kind == 179 and status & 1 and not any(named & 127 > 63 for named in self.command[2::3]):
            return self.breaks('accepted')
        if kind == 177 and octets[1] & self.command[1]:
            return self.breaks('cleared')
        if kind == 186 and self.watchdog and not status & 1:
            return self.breaks('watchdog')
        self.heard = self.heard or kind == 182
        timed = kind in (177, 180, 181) or kind == 182 and not octets[-5] & 2
        stamp = int.from_bytes(octets[-4:], 'big') if kind in (177, 180, 181, 182) else None
        if timed and self.clock is not None and is_before(stamp, self.clock):
            if self.accuses('clock'):
                return None
        elif timed:
            self.clock = stamp
        if kind == 182:
            self.take(octets, octets[-5], stamp)
        elif kind == 179 and not status & 1:
            self.taken |= {named & 127 for named in self.command[2::3]} & ALL
        elif kind == 186:
            self.watchdog = True
        elif kind == 181 and self.timely:
            self.seen = stamp, int.from_bytes(octets[1:9], 'little')
        return None

    def take(self, octets, status, stamp):
        """Records a block, and settles the inputs that it shows."""
        self.asked = False
        self.number = (octets[1] + 1) % 256
        self.late = self.full is not None and (stamp - self.full) % WIDE >= 65_536
        if self.late:
            self.seen = None
        if status & 4:
            self.items.append(None)
            self.watched, self.seen, self.told = set(), None, {}
        for at in range(3, len(octets) - 5, 3):
            named, low = struct.unpack('>BH', octets[at:at + 3])
            wide = (stamp - (stamp - low) % 65_536) % WIDE
            self.enter(named & 127, named >> 7, wide)
            if self.breach:
                return
            self.items.append((named & 127, named >> 7, low, wide))
        if status & 8:
            return
        if self.seen and not is_before(stamp, self.seen[0]) and self.differs():
            return
        since = self.since if self.clear else ALL
        self.clear, self.timely = self.clear or not status & 2, self.timely or self.heard and not status & 2
        self.floor, self.full = ((stamp, BLOCK_END), stamp) if self.timely else (None, None)
        # One that is sent again was made at an earlier poll for it, and took all entries that waited. So it settles what was sent
        # above the first poll for it. That one is in the log if a clear block is above.
        self.settle(ALL - since if status & 2 else ALL)

    def settle(self, inputs):
        """What was sent of these inputs was received, or is lost."""
        for pending in (self.hidden, self.reopened, self.touched):
            pending -= inputs
        for named in self.taken & inputs:
            ignore, *self.least[named] = self.last[named]
            (self.shut.add if ignore else self.shut.discard)(named)

    def enter(self, named, state, wide):
        """Judges an entry, and keeps it."""
        if self.seen and wide != self.seen[0] and not is_before(wide, self.seen[0]) and self.differs():
            return None
        known = self.timely and not self.late
        if self.floor and known:
            time, above = self.floor
            if (is_before(wide, time) or wide == time and named <= above) and self.accuses(
                    'fresh' if above == BLOCK_END else 'order', named):
                return None
        if named in self.watched and self.levels[named] == state:
            return self.breaks('alternate', named)
        if named in self.times and known and (wide - self.times[named]) % WIDE < max(1, self.least[named][state]) and self.accuses(
                'apart', named):
            return None
        if named in self.shut:
            return self.breaks('ignored', named)
        if (self.told.pop(named, None) == state or named in self.unlogged) and self.accuses('state', named):
            return None
        self.floor = (wide, named) if self.timely and not self.late else None
        self.times.pop(named, None)
        if self.timely and not self.late:
            self.times[named] = wide
        self.levels[named] = state
        (self.watched.add if self.clear and named not in self.reopened else self.watched.discard)(named)
        (self.shaded.add if named in self.hidden else self.shaded.discard)(named)
        return None

    def differs(self):
        """The record has come to the states of the latest 181: an input has another one. What the 181 says of each input is asked of
        its next entry."""
        states = {named: self.seen[1] >> named & 1 for named in ALL}
        others = [named for named in self.watched - self.shaded if self.levels[named] != states[named]]
        for named in ALL - self.touched:
            if self.told.get(named, states[named]) != states[named]:
                self.unlogged.add(named)
        self.told = {named: states[named] for named in ALL - self.touched}
        self.seen = None
        return bool(others) and self.accuses('state', min(others))

    def accuses(self, rule, named=None):
        """A rule on time is broken. Returns whether nothing excuses it. A load that was sent excuses one breach, since the counter
        may have jumped: all that is known of times is forgotten, until the end of a clear block that is heard below. 255 excuses
        are never used up."""
        if not self.excuses:
            self.breaks(rule, named)
            return True
        self.excuses -= self.excuses < 255
        self.timely, self.heard, self.clock, self.floor, self.full, self.seen = False, False, None, None, None, None
        self.times, self.told, self.unlogged = {}, {}, set()
        return False

    def breaks(self, rule, named=None):
        """Keeps the first breach."""
        self.breach = 'line %d%s breaks %s\n' % (self.line, '' if named is None else ' input %d' % named, rule)

    def text(self):
        """What `record` writes."""
        return shown(self.items) + (self.breach or '')


def shown(items):
    """The lines for the items of a record."""
    return 'record %d\n' % len(items) + ''.join(
        'input %d state %d stamp %d wide %d\n' % item if item else 'gap\n' for item in items)
