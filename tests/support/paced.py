"""Paces of a line that takes its time, by a plain calculation, and both ends at such a pace: the module's buffer and blocks, the
CPU that polls by a clock of its own, and a line on which a message takes the time of its bits."""

import random
from collections import deque, namedtuple

Line = namedtuple('Line', 'rate stop_bits answer other lost drift jitter', defaults=(0, 0))
Traffic = namedtuple('Traffic', 'inputs filter per_block waiting')
RATES = (57_600, 115_200, 153_600, 614_400, 1_000_000)
MILLION = 1_000_000
MOST_DRIFT = 10_000


def up(number, divisor):
    """A quotient, rounded up."""
    return -(-number // divisor)


def bits_of(octets, stop_bits):
    """The most bits of a message of this number of octets, with address, control octet, frame check, stuffing and two flags."""
    frame = octets + 4
    return 16 + 8 * frame * 6 // 5 if stop_bits == 0 else (1 + 8 + stop_bits) * (1 + 2 * frame + 1)


def line_time(line, bits):
    """How many scans come at most while bits are on the line."""
    return up(1000 * bits, line.rate)


def apart(line, every):
    """How many scans come at least and at most between two polls, the second of which is due `every` scans after the first by the
    CPU's clock: this drifts, and one of the two polls may be late."""
    nearest, furthest = every * (MILLION - line.drift) // MILLION, up(every * (MILLION + line.drift), MILLION)
    return max(nearest - line.jitter, 0), furthest + line.jitter


def planned(line, traffic, every):
    """How long a round takes, how late a transition is and the load, at this pace; None if it is none."""
    until_received = line_time(line, bits_of(2, line.stop_bits) + line.other)
    nearest, furthest = apart(line, every)
    lag = (2 * line.lost + 1) * furthest + until_received
    entries = min(traffic.per_block, traffic.inputs * up(lag, traffic.filter))
    bits = bits_of(2, line.stop_bits) + bits_of(8 + 3 * entries, line.stop_bits) + line.other
    taken = line.answer + line_time(line, bits)
    has_room = traffic.inputs * (lag + traffic.filter - 1) <= traffic.waiting * traffic.filter
    if taken > nearest or not has_room or falls_behind(line, traffic, every):
        return None
    fits = traffic.inputs * up((line.lost + 1) * furthest, traffic.filter) <= traffic.per_block
    late = (2 * line.lost + 1) * furthest + taken - 1 + (0 if fits else traffic.filter - 1)
    return taken, late, up(1000 * 1000 * bits, line.rate * nearest)


def falls_behind(line, traffic, every):
    """Whether more changes can come from one clean round to the next than a block takes, in the long run: then at each slower pace too."""
    return traffic.inputs * (line.lost + 1) * apart(line, every)[1] > traffic.per_block * traffic.filter


def least(line, traffic):
    """The least pace and what holds at it, or None."""
    every = 1
    while not falls_behind(line, traffic, every):
        found = planned(line, traffic, every)
        if found:
            return (every, *found)
        every += 1
    return None


def setting(choose):
    """A line and traffic by chance."""
    line = Line(choose.choice((*RATES, choose.randint(1, 3_000_000))), choose.choice((0, 0, 1, 2)), choose.choice((0, 0, 1, 3, choose.randrange(20))),
                     choose.choice((0, 0, 300, choose.randrange(2000))), choose.choice((0, 0, 0, 1, 2)),
                     choose.choice((0, 50, 100, MOST_DRIFT, choose.randint(1, MOST_DRIFT))), choose.choice((0, 0, 1, choose.randrange(20))))
    traffic = Traffic(choose.choice((1, 2, 8, 16, 32, 64, choose.randint(1, 64))), choose.choice((1, 2, 5, 10, 20, 50, choose.randint(1, 255))),
                           choose.choice((255, 255, 64, choose.randint(1, 255))), choose.choice((1024, 1024, 8192, choose.randint(1, 2000))))
    return line, traffic


class Played:
    """Both ends, polled at a pace. Inputs of a group change together, each time that their filters let them or as chance says. Times
    are in millionths of a scan: the module scans at each million, and the CPU's clock drifts from that."""

    def __init__(self, line, traffic, every, seed):
        self.line, self.traffic, self.every = line, traffic, every
        self.choose = random.Random(seed)
        cuts = sorted(self.choose.randint(0, traffic.inputs) for _ in range(self.choose.choice((0, 1, 3))))
        self.groups = [[count - before, self.choose.randint(1, traffic.filter)] for before, count in zip([0, *cuts], [*cuts, traffic.inputs])]
        self.often = self.choose.choice((1, 1, 0.9, 0.3))
        self.now = self.waits = self.lost = self.late = self.longest = self.overrun = 0
        self.time = self.due = self.choose.choice((0, MILLION - 1, self.choose.randrange(MILLION)))
        # The clock is fast, slow or both by turns; a poll is due so long after the one before was due, or after it was sent.
        self.drifts = self.choose.choice(((line.drift,), (-line.drift,), range(-line.drift, line.drift + 1)))
        self.is_by_schedule = self.choose.random() < 0.5
        # What waits, and the block that the CPU has not taken yet: scans, and how many entries have them.
        self.waiting, self.kept = deque(), None

    def oldest(self):
        """The scan of the oldest transition that is not recorded."""
        return next(iter([*(self.kept or []), *list(self.waiting)[:1]]), (self.now, 0))[0]

    def scan(self, count):
        """Scans, each with what the groups report."""
        for _ in range(count):
            self.now += 1
            made = 0
            for group in self.groups:
                if group[1] <= self.now and (self.often == 1 or self.choose.random() < self.often):
                    made, group[1] = made + group[0], self.now + self.traffic.filter
            if made:
                self.waiting.append((self.now, made))
                self.waits += made
                over = max(self.waits - self.traffic.waiting, 0)
                self.lost += over
                self.take(over)
            self.late = max(self.late, self.now - self.oldest())

    def take(self, most):
        """Takes the oldest that wait."""
        taken = []
        while most and self.waiting:
            at, count = self.waiting.popleft()
            used = min(most, count)
            taken.append((at, used))
            if used < count:
                self.waiting.appendleft((at, count - used))
            most, self.waits = most - used, self.waits - used
        return taken

    def wait(self, until):
        """The scans up to a time."""
        self.scan(until // MILLION - self.now)
        self.time = until

    def at_most(self, longest):
        """A duration, none or the longest rather often."""
        return self.choose.choice((0, longest, longest, self.choose.randint(0, longest)))

    def round(self, is_lost):
        """A round: the poll or the answer is lost, or the CPU takes a block. Then the CPU waits until it is time to poll again."""
        begun, scans = self.time, self.now
        bits = bits_of(2, self.line.stop_bits) + self.line.other
        if not (is_lost and self.choose.random() < 0.4):
            self.wait(begun + self.at_most(1000 * MILLION * bits // self.line.rate))
            if self.kept is None:
                self.kept = self.take(self.traffic.per_block)
            if not is_lost:
                bits += bits_of(8 + 3 * sum(count for _, count in self.kept), self.line.stop_bits)
                taken = MILLION * self.line.answer + 1000 * MILLION * bits // self.line.rate
                self.wait(max(begun + self.at_most(taken), self.time))
                self.longest, self.kept = max(self.longest, self.now - scans), None
        self.due += self.every * (MILLION + self.choose.choice(self.drifts))
        again = self.due + self.at_most(MILLION * self.line.jitter)
        self.overrun += again < self.time
        self.wait(max(again, self.time))
        self.due = self.due if self.is_by_schedule else self.time

    def play(self, rounds):
        """How many entries were pushed out, how late a transition was, how long a round took, and how many polls were due before the
        round before had ended."""
        row = 0
        for _ in range(rounds):
            row = row + 1 if row < self.line.lost and self.choose.random() < 0.6 else 0
            self.round(row > 0)
        return self.lost, self.late, self.longest, self.overrun


def check_paces(check):
    """The least pace of a line that `libfio2070` finds is that of a plain calculation, with a right clock and with one that drifts.
    Both ends at it lose nothing, no round is longer than it says or goes on when the next poll is due, and no transition is later; in
    some runs one is as late. One below it, in some runs a poll is due before the round before has ended."""
    import fio2070
    choose, reached, paces, below = random.Random(1), 0, 0, 0
    count = 10_000 if check.whole('paces of %d lines' % 10_000) else 500
    for seed in range(count):
        drifting, traffic = setting(choose)
        for line in (drifting._replace(drift=0, jitter=0), drifting):
            name, known = 'a pace over %s for %s' % (line, traffic), least(line, traffic)
            check.equal(name, known, fio2070.plan(fio2070.Line(**line._asdict(), **traffic._asdict())))
            if known:
                every, longest, latest, _ = known
                rounds = 6 if every > 60 else 12
                lost, late, taken, overrun = Played(line, traffic, every, seed).play(rounds)
                check.holds(name + ' is kept', lost == overrun == 0 and late <= latest and taken <= longest, (lost, late, taken, overrun))
                paces, reached = paces + 1, reached + (late == latest)
                below += every > 1 and Played(line, traffic, every - 1, seed).play(rounds)[3] > 0
    check.holds('of %d lines with a pace some are as late as it says' % paces, reached > paces // 100, reached)
    check.holds('one below, some rounds go on when the next poll is due', below > paces // 100, below)
    check_clock(check)


def check_clock(check):
    """A pace that is one by a right clock is none by a clock that is 50 parts in a million slow: in some runs a transition is later."""
    line, traffic = Line(397_264, 0, 0, 0, 0), Traffic(64, 5, 255, 1024)
    every, _, latest, _ = least(line, traffic)
    for drift in (0, 50):
        late = max(Played(line._replace(drift=drift), traffic, every, seed).play(4)[1] for seed in range(1000))
        check.equal('every %d ms for 64 inputs is %d parts in a million wrong: some are later' % (every, drift), drift > 0, late > latest)
    check.equal('so it is no pace', None, least(line._replace(drift=50), traffic))
