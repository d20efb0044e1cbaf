#!/usr/bin/env -S python3 -B
"""`simulate` on runs of both ends: losses, repeats, overflows, many rounds, loads of the counter, restarts, limits, and
random filters and samples of all inputs. Each whole report is computed here, from the levels of the scans alone, and the
record is compared with the transitions that the scans make. Last line: `N passed, M failed`."""

import random

from support.check import Check
from support.tables import MOST_WAITING, row

ALL = (1 << 64) - 1
GAP = 'gap'


class Example:
    """A script, and the report that it should have. The inputs that are open have filters of one sample."""

    def __init__(self, first=0, version='1', limits=''):
        self.first = first
        self.script = ['fio2070 script %s 2 %d%s' % (version, first, limits)]
        self.report = []
        self.sent = self.answered = self.counter = 0
        self.open, self.levels = 0, ALL
        # Each transition: input, level, counter.
        self.log = []

    def event(self, line, outcome):
        self.script.append(line)
        self.report.append('%d %s' % (len(self.report) + 1, outcome))

    def scan(self, raw):
        """A sample of each input, bit i for input i."""
        self.counter += 1
        for place in range(64):
            if self.open >> place & 1 and (raw ^ self.levels) >> place & 1:
                self.log.append((place, raw >> place & 1, self.counter))
        self.levels = raw
        self.event('scan ' + raw.to_bytes(8, 'little').hex(), 'quiet')

    def full_scans(self, count):
        """Scans that change all inputs, the first of all to 0."""
        for _ in range(count):
            self.scan(self.levels ^ ALL)

    def command(self, octets, answer):
        """The CPU sends a command, which the module answers; the answer is not delivered."""
        self.sent += 1
        self.event('send ' + octets, 'sent %d %s' % (self.sent, octets))
        self.to_module(self.sent, answer)

    def open_inputs(self, inputs):
        items = ''.join('%02x0101' % place for place in inputs)
        self.command('33%02x%s' % (len(inputs), items), 'b300')
        self.open = sum(1 << place for place in inputs)

    def poll(self, number):
        self.sent += 1
        self.event('poll', 'sent %d 36%02x' % (self.sent, number))

    def to_module(self, index, answer):
        self.answered += 1
        self.event('to-module %d' % index, 'sent %d %s' % (self.answered, answer))

    def block(self, number, entries, status):
        """The octets of a block that is made now."""
        octets = ''.join('%02x%04x' % (level << 7 | place, counter % 65536)
                         for place, level, counter in entries)
        return 'b6%02x%02x%s%02x%08x' % (number, len(entries), octets, status, self.counter)

    def polled(self, number, entries, status):
        """A poll whose answer is a block of these entries, and is taken."""
        self.poll(number)
        self.to_module(self.sent, self.block(number, entries, status))
        self.takes(self.answered, entries, status)

    def takes(self, index, entries, status):
        self.event('to-cpu %d' % index, 'block entries %d status %02x' % (len(entries), status))

    def finds_stale(self, index, number):
        self.event('to-cpu %d' % index, 'stale %d' % number)

    def ends(self, check, name, number, waiting, items):
        """A row: the program writes the report of this run. The items of the record are transitions and gap marks."""
        lines = ['counter %d' % self.counter, 'number %d' % number,
                 'waiting %d' % waiting, 'record %d' % len(items)]
        for item in items:
            lines.append(GAP if item == GAP else 'input %d state %d stamp %d wide %d'
                         % (item[0], item[1], item[2] % 65536, item[3] if len(item) > 3 else item[2]))
        row(check, name, 'simulate', '\n'.join(self.script) + '\n', '\n'.join(self.report + lines) + '\n', 0)


def lost_poll(check):
    run = Example()
    run.poll(0)
    run.poll(0)
    run.to_module(2, run.block(0, [], 0))
    run.takes(1, [], 0)
    run.ends(check, 'a lost poll', 1, 0, [])


def two_polls_of_one_number_under_way(check):
    run = Example()
    run.poll(0)
    run.poll(0)
    run.to_module(1, run.block(0, [], 0))
    run.to_module(2, run.block(0, [], 2))
    run.takes(1, [], 0)
    run.finds_stale(2, 0)
    run.ends(check, 'two polls of one number under way', 1, 0, [])


def full_scans_and_polls(check, polls, limits=''):
    """After this many full scans in all, a poll takes the log from one place to another, with this status, and this many
    entries remain waiting. After each poll the record is what the blocks so far have of the log."""
    for count in range(1, len(polls) + 1):
        run = Example(version='3' if limits else '1', limits=limits)
        run.open_inputs(range(64))
        items, end = [], 0
        for number, (scans, start, stop, status, waiting) in enumerate(polls[:count]):
            run.full_scans(scans - run.counter)
            run.polled(number, run.log[start:stop], status)
            items += ([GAP] if start != end else []) + run.log[start:stop]
            end = stop
        run.ends(check, 'full scans and %d polls%s, %d scans in all' % (count, limits and ', limits' + limits, scans),
                 count, waiting, items)


def as_many_as_a_block_takes(check):
    """255 transitions: one block has them all, and says that no more wait."""
    run = Example()
    run.open_inputs(range(64))
    run.full_scans(3)
    run.scan(ALL >> 1)
    run.polled(0, run.log, 0)
    run.polled(1, [], 0)
    run.ends(check, 'a block of 255 transitions', 2, 0, run.log)


def loss_in_the_next_new_block(check):
    """The empty answer to poll 0 is lost, and then entries are pushed out: the answer is sent again as it was, and the next
    block reports the loss."""
    run = Example()
    run.open_inputs(range(64))
    run.poll(0)
    run.to_module(2, run.block(0, [], 0))
    run.poll(0)
    stamped_then = run.block(0, [], 2)
    run.full_scans(17)
    run.to_module(3, stamped_then)
    run.takes(3, [], 2)
    run.polled(1, run.log[64:319], 0x0c)
    run.ends(check, 'a loss in the next new block', 2, 769, [GAP] + run.log[64:319])


def long_records(check):
    """Records of 65,536 items and of more: after a block of one entry, 257, 258 and 1,425 blocks of 255 entries. Those
    1,425 are 1,101,525 octets, and their record has 363,376 items."""
    for blocks in (257, 258, 1_425):
        run = Example(version='3', limits=' 255 %d' % MOST_WAITING)
        run.open_inputs(range(64))
        run.scan(ALL - 1)
        run.polled(0, run.log, 0)
        for number in range(1, blocks + 1):
            # 256 transitions, of which one more than before remains waiting.
            run.full_scans(4)
            end = 1 + 255 * number
            run.polled(number % 256, run.log[end - 255:end], 8)
        run.ends(check, 'a record of %d items' % (1 + 255 * blocks), (blocks + 1) % 256, blocks,
                 run.log[:1 + 255 * blocks])


def many_rounds(check):
    """In each of 300 rounds input 0 changes, and two polls with the same number are answered: the first answer is taken, and
    the second is stale."""
    run = Example(first=255)
    run.open_inputs([0])
    for turn in range(300):
        number = (255 + turn) % 256
        run.scan(run.levels ^ 1)
        run.poll(number)
        run.poll(number)
        change = run.log[-1:]
        run.to_module(run.sent - 1, run.block(number, change, 0))
        run.to_module(run.sent, run.block(number, change, 2))
        run.takes(run.answered - 1, change, 0)
        run.finds_stale(run.answered, number)
    run.ends(check, '300 rounds', 43, 0, run.log)


def load_before_the_block(check):
    """The counter is loaded between a transition and its block: the entry is right, and its wide time is not."""
    run = Example()
    run.open_inputs([0])
    run.scan(ALL - 1)
    run.command('3200020000', 'b200')
    run.event('sync', 'quiet')
    run.counter = 0x20000
    run.polled(0, [(0, 0, 1)], 0)
    run.ends(check, 'a load of the counter before the block', 1, 0, [(0, 0, 1, 65537)])


def restarted():
    """A block is made and sent, the module restarts, and the same poll reaches it again: it makes the first block of a new
    life."""
    run = Example(version='2')
    run.open_inputs([0])
    run.scan(ALL - 1)
    run.poll(0)
    run.to_module(2, run.block(0, run.log, 0))
    run.event('restart', 'quiet')
    run.counter = 0
    run.to_module(2, run.block(0, [], 0))
    return run


def answer_from_before_a_restart(check):
    run = restarted()
    run.takes(2, run.log, 0)
    run.finds_stale(3, 0)
    run.ends(check, 'the answer from before a restart, delivered', 1, 0, run.log)
    # No gap mark appears for what is lost in a restart.
    run = restarted()
    run.takes(3, [], 0)
    run.ends(check, 'the answer from before a restart, lost', 1, 0, [])


def one_entry_a_block(check):
    run = Example(version='3', limits=' 1 1024')
    run.open_inputs([0, 12])
    run.scan(ALL ^ 0x1001)
    run.polled(0, run.log[:1], 8)
    run.polled(1, run.log[1:], 0)
    run.ends(check, 'one entry a block', 2, 0, run.log)


class Input:
    """One input, filtered by itself: the length of its run has no bound."""

    def __init__(self):
        self.ignore, self.leading, self.trailing = True, 5, 5
        self.level = self.state = 1
        self.run = 0

    def configure(self, ignore, leading, trailing):
        self.ignore, self.leading, self.trailing = ignore, leading, trailing
        self.run = 0

    def scan(self, sample):
        """Takes a sample, and returns whether a transition is reported."""
        self.run = self.run + 1 if sample == self.level else 1
        self.level = sample
        if sample == self.state or self.run < max(self.trailing if sample else self.leading, 1):
            return False
        self.state = sample
        return not self.ignore


def configured(run, inputs, numbers):
    """A configuration of eight inputs with random filters: often short ones, at times the longest."""
    octets = ''
    for place in [numbers.randrange(64) for _ in range(8)]:
        ignore = numbers.random() < 0.3
        leading, trailing = [numbers.choice([0, numbers.randrange(8), numbers.randrange(256), 255]) for _ in range(2)]
        inputs[place].configure(ignore, leading, trailing)
        octets += '%02x%02x%02x' % (ignore << 7 | place, leading, trailing)
    run.command('3308' + octets, 'b300')


def filtered_alone(check, rarity):
    """Samples in which each input changes once in 2^rarity scans, filtered one input after another. The states are read at
    each scan, and every fourth scan a poll takes what waits."""
    numbers = random.Random(rarity)
    run, inputs, taken, rounds = Example(), [Input() for _ in range(64)], 0, 0
    for scan in range(800):
        if scan % 50 == 0:
            configured(run, inputs, numbers)
        changed = ALL
        for _ in range(rarity):
            changed &= numbers.getrandbits(64)
        run.levels ^= changed if rarity else numbers.getrandbits(64)
        run.counter += 1
        run.event('scan ' + run.levels.to_bytes(8, 'little').hex(), 'quiet')
        for place, one in enumerate(inputs):
            if one.scan(run.levels >> place & 1):
                run.log.append((place, one.state, run.counter))
        states = sum(one.state << place for place, one in enumerate(inputs))
        run.command('35', 'b5%s%08x' % (states.to_bytes(8, 'little').hex(), run.counter))
        if scan % 4 == 3:
            entries = run.log[taken:taken + 255]
            taken += len(entries)
            run.polled(rounds % 256, entries, 8 if taken < len(run.log) else 0)
            rounds += 1
    run.ends(check, 'filtered alone, an input changes once in %d scans' % 2 ** rarity, rounds % 256,
             len(run.log) - taken, run.log[:taken])


FULL_SCANS = [
    # One more than a block takes.
    ([(4, 0, 255, 8, 1), (4, 255, 256, 0, 0)], ''),
    # The most that may wait, and more.
    ([(16, 0, 255, 8, 769)], ''),
    ([(17, 64, 319, 0x0c, 769)], ''),
    # Six blocks over two losses.
    ([(20, 256, 511, 0x0c, 769), (28, 768, 1023, 0x0c, 769), (28, 1023, 1278, 8, 514),
      (28, 1278, 1533, 8, 259), (28, 1533, 1788, 8, 4), (28, 1788, 1792, 0, 0)], ''),
]
# The most that may wait, and more, with the limits of a script.
for limit in range(1024, MOST_WAITING + 1, 256):
    FULL_SCANS.append(([(limit // 64, 0, 255, 8, limit - 255)], ' 255 %d' % limit))
    FULL_SCANS.append(([(limit // 64 + 1, 64, 319, 0x0c, limit - 255)], ' 255 %d' % limit))

check = Check()
for polls, limits in FULL_SCANS:
    full_scans_and_polls(check, polls, limits)
for part in (lost_poll, two_polls_of_one_number_under_way, as_many_as_a_block_takes, loss_in_the_next_new_block, long_records,
             many_rounds, load_before_the_block, answer_from_before_a_restart, one_entry_a_block):
    part(check)
for rarity in range(10):
    filtered_alone(check, rarity)
check.end()
