#!/usr/bin/env -S python3 -B
"""Computes the table of docs/PLANNING.md again from its formulas. Computes for the densest traffic of each row, by counts
alone, that it reaches each bound, and that one scan more loses a transition; and for small settings, by a search of all
states, that the bounds are exact. Runs the densest traffic by `simulate`: what arrives at the end of each clean round, how
late it is, outages of the length in the table and of one scan more, rounds as far apart as the table says and one scan
further, restarts, and configurations that open other inputs; and by `libfio2070` over rings with exactly the room that the
page asks for, and one slot less. Compares the paces at a rate that `libfio2070` finds with a calculation of its own, and plays both
ends at each over a line that takes its time, polled by a clock that drifts. Last line: `N passed, M failed`."""

import itertools
import random
import re
from typing import NamedTuple

from support.check import Check
from support.fiolog import use_library
from support.paced import Line, Traffic, check_paces, least
from support.pages import text_of
from support.tables import MOST_WAITING, output_of

FILTERS = (1, 2, 5, 10, 20, 50)
INPUTS = (8, 16, 32, 64)
PER_BLOCK = 255
WAITING = (1024, MOST_WAITING)
ALL_ONES = 2 ** 64 - 1
# What becomes of a round: its answer is taken, or lost.
CLEAN, LOST = 'clean', 'lost'
# Inputs, filters, blocks and paces; whether an answer is lost; and whether one slot less than the room is too few.
SMALL_RINGS = ((8, 5, 64, 40, False, False), (8, 5, 64, 36, False, True), (8, 5, 64, 38, True, True), (64, 5, 255, 16, False, True),
               (64, 5, 255, 18, True, True), (64, 1, 64, 1, False, True), (64, 1, 128, 2, True, True), (40, 10, 100, 21, False, True),
               (40, 9, 100, 14, True, True), (3, 7, 4, 8, False, True), (3, 7, 4, 4, True, True), (1, 1, 1, 1, False, True),
               (1, 20, 1, 20, True, False), (64, 50, 32, 20, True, False))


def most_exact(inputs, filter_length, per_block, every, lost_answer):
    """The most entries that wait and the most scans that one is late, with blocks and filters counted whole."""
    late = max(j * every - filter_length * (per_block * j // inputs) for j in range(inputs))
    waiting = max(inputs * -(-(j + 1 + lost_answer) * every // filter_length) - per_block * j
                  for j in range(filter_length + 1))
    return waiting, (1 + lost_answer) * every - 1 + late


class Row(NamedTuple):
    """A row of the table: for open inputs with filters of this number of samples how far apart clean rounds may be, what waits at
    most and how late it is, if no answer is lost and if some are, and the longest outages."""
    inputs: int
    filter: int
    every: int
    kept: tuple[int, int]
    lost: tuple[int, int]
    outages: list[int]

    @property
    def name(self):
        return '%d inputs with filters of %d' % self[:2]


def planned(inputs, filter_length):
    """The row of the table for this number of open inputs with filters of this number of samples."""
    every = PER_BLOCK * filter_length // inputs
    most = (most_exact(inputs, filter_length, PER_BLOCK, every, lost_answer) for lost_answer in (False, True))
    return Row(inputs, filter_length, every, *most, [waiting // inputs * filter_length for waiting in WAITING])


ROWS = [planned(inputs, filter_length) for inputs in INPUTS for filter_length in FILTERS]
# The rows of the document: `fiolog plan` prints the others.
SHOWN = [row for row in ROWS if row.filter in (1, 5, 10, 50)]


def at_rate(row, rate):
    """The cell of a row for a synchronous line of this rate."""
    found = least(Line(rate, 0, 0, 0, 0), Traffic(row.inputs, row.filter, PER_BLOCK, WAITING[0]))
    return '%d/%d' % (found[0], found[2]) if found else 'none'


def check_table(check):
    """The rows of the table in the document are the computed ones."""
    found = [[cell.strip().replace(',', '') for cell in line.strip('| ').split('|')]
             for line in text_of('docs/PLANNING.md').splitlines() if re.match(r'\| \d', line)]
    check.equal('the number of rows of docs/PLANNING.md', len(SHOWN), len(found))
    for row, cells in zip(SHOWN, found):
        check.equal('the row of docs/PLANNING.md for ' + row.name,
                    [*map(str, (*row[:3], row.kept[1], row.lost[1])), *(at_rate(row, rate) for rate in (153_600, 614_400))], cells)


def logged_in(inputs, filter_length, scans):
    """How many transitions the densest traffic has in a number of scans: all inputs change at the first, and then at each
    scan that ends a filter."""
    return inputs * -(-scans // filter_length)


def clean_rounds(row, every, first=1):
    """Yields for each clean round in the densest traffic, this far apart, how many entries wait and how late the oldest is."""
    taken = 0
    for number in itertools.count(first):
        waiting = logged_in(row.inputs, row.filter, every * number) - taken
        yield waiting, every * number - 1 - taken // row.inputs * row.filter
        taken += min(PER_BLOCK, waiting)


def most_reached(row, lost_answer):
    """The most entries that wait and the most scans that one is late, with clean rounds as far apart as the table says. If an
    answer was lost when it began, the first of them repeats its block."""
    rounds = itertools.islice(clean_rounds(row, row.every, 1 + lost_answer), 3 * row.filter + 8 - lost_answer)
    return tuple(map(max, zip(*rounds)))


def room(inputs, filter_length, every, lost_answer):
    """The slots for which docs/PLANNING.md asks, with clean rounds this far apart."""
    return -(-inputs * ((1 + lost_answer) * every + filter_length - 1) // filter_length)


def check_room(check):
    """The room that docs/PLANNING.md asks for is at least what waits at most, and in each row of its table the limits have it."""
    for row in ROWS:
        for lost_answer, (waiting, _) in enumerate((row.kept, row.lost)):
            check.holds('room for %s%s' % (row.name, ', answers lost' * lost_answer),
                        waiting <= room(*row[:3], lost_answer) <= 2 * PER_BLOCK + 64 <= WAITING[0])


def is_lossy(fio2070, inputs, filter_length, per_block, slots, every, lost_answer):
    """Whether the record of the real ends has a gap mark after some clean rounds this far apart. The open inputs change as often as
    their filters let them, first with the first scan; the answer to a poll just before that may be lost."""
    module, poller = fio2070.Module(per_block=per_block, waiting=slots), fio2070.Poller(0)
    module.receive(fio2070.encode.configure_inputs(
        [fio2070.ConfigurationItem(number, False, filter_length, filter_length) for number in range(inputs)]))
    levels = [scan // filter_length % 2 * (2 ** 64 - 1) for scan in range(filter_length - 1 + 8 * every)]
    for raw in levels[:filter_length - 1]:
        module.scan(raw)
    if lost_answer:
        module.receive(poller.poll())
    for scan, raw in enumerate(levels[filter_length - 1:], 1):
        module.scan(raw)
        if scan % every == 0:
            poller.hear(module.receive(poller.poll()))
    return any(item.gap for item in poller.record)


def check_small_rings(check):
    """Rings with exactly the room that docs/PLANNING.md asks for lose none in the densest traffic. One slot less loses some
    in the rows that say so, which are those in which the filter divides the scans before the latest one."""
    use_library(check, 'rings with exactly the room for the densest traffic')
    import fio2070
    for inputs, filter_length, per_block, every, lost_answer, is_sharp in SMALL_RINGS:
        slots = room(inputs, filter_length, every, lost_answer)
        name = '%d inputs, filters of %d, blocks of %d, a round every %d%s: ' % (
            inputs, filter_length, per_block, every, ', one lost' * lost_answer)
        check.holds(name + 'a block takes enough', inputs * every <= per_block * filter_length)
        traffic = inputs, filter_length, per_block
        check.equal(name + '%d slots lose some' % slots, False, is_lossy(fio2070, *traffic, slots, every, lost_answer))
        if slots > 1:
            check.equal(name + '%d slots lose some' % (slots - 1), is_sharp,
                        is_lossy(fio2070, *traffic, slots - 1, every, lost_answer))


def overflows(row, every, limit, rounds):
    """Whether the densest traffic overflows the buffer, with this number of clean rounds this far apart."""
    return any(waiting > limit for waiting, _ in itertools.islice(clean_rounds(row, every), rounds))


def check_bounds(check):
    """That the densest traffic reaches each bound, as docs/PLANNING.md says, and loses a transition with one scan more."""
    for row in ROWS:
        reached = most_reached(row, False), most_reached(row, True)
        check.equal('the bounds of *Waiting* and *Late*, ' + row.name, (row.kept, row.lost), reached)
        for waiting, outage in zip(WAITING, row.outages):
            logged = [logged_in(row.inputs, row.filter, scans) for scans in (outage, outage + 1)]
            check.holds('an outage of %d is the longest, %s' % (outage, row.name), logged[0] <= waiting < logged[1])
            check.holds('a scan more loses some of %d that wait, %s' % (waiting, row.name), overflows(row, row.every + 1, waiting, 400_000))
        check.holds('the pace loses none, ' + row.name, not overflows(row, row.every, WAITING[0], 4_000))


def next_states(inputs, filter_length, per_block, every, state):
    """The successors of a state by a poll, with its answer taken or lost, or by a scan: for each input how long ago it
    changed, the ages of what waits, those of a block whose answer was lost, and the scans since the latest clean round. With
    each, the ages of the block taken."""
    since, ages, kept, scans = state
    if kept is None:
        yield (since, ages[per_block:], None, 0), ages[:per_block]
        yield (since, ages[per_block:], ages[:per_block], scans), ()
    else:
        yield (since, ages, None, 0), kept
    if scans < every:
        able = sum(age >= filter_length for age in since)
        older = [min(filter_length, age + 1) for age in since]
        for count in range(able + 1):
            changed = tuple(sorted([1] * count + older[count:], reverse=True))
            yield (changed, tuple(age + 1 for age in ages) + (0,) * count,
                   None if kept is None else tuple(age + 1 for age in kept), scans + 1), ()


def check_search(check):
    """All states that can be reached in small settings: the most that wait, and how late the latest is, if answers may be
    lost and if none are."""
    for inputs, filter_length, per_block in ((1, 3, 3), (2, 2, 3), (2, 3, 3), (3, 2, 4), (2, 4, 3)):
        every = per_block * filter_length // inputs
        for lost_answer in (False, True):
            begin = ((filter_length,) * inputs, (), None, 0)
            seen, todo, waiting, late = {begin}, [begin], 0, 0
            while todo:
                for state, taken in next_states(inputs, filter_length, per_block, every, todo.pop()):
                    late = max((late,) + taken)
                    if state not in seen and (lost_answer or state[2] is None):
                        waiting = max(waiting, len(state[1]))
                        seen.add(state)
                        todo.append(state)
            check.equal('%d inputs, filters of %d, blocks of %d%s: what waits, and the latest'
                        % (inputs, filter_length, per_block, ', answers lost' * lost_answer),
                        most_exact(inputs, filter_length, per_block, every, lost_answer), (waiting, late))


def most_planned(inputs, groups, scans):
    """The most that a number of scans can report, by a search of all that inputs and configurations can do, if at each scan
    each open input is in one of the groups, no more of each than planned, with the filter of its group. A configuration
    begins a run anew, also one that moves an input from one group to another."""
    lengths = [length for _, length in groups]
    every = [(group, 0) for group in range(len(groups))] + [(None, 0)]

    def is_planned(state):
        return all(sum(group == number for group, _ in state) <= count for number, (count, _) in enumerate(groups))

    ready = [(group, lengths[group] - 1) for group in range(len(groups))] + [(None, 0)]
    reached = {tuple(sorted(state, key=str)): 0 for state in itertools.product(ready, repeat=inputs) if is_planned(state)}
    for _ in range(scans):
        configured = {}
        for state, count in reached.items():
            for after in itertools.product(*([one] + every for one in state)):
                if is_planned(after):
                    after = tuple(sorted(after, key=str))
                    configured[after] = max(count, configured.get(after, 0))
        reached = {}
        for state, count in configured.items():
            choices = [((group, age, 0),) if group is None
                       else ((group, min(age + 1, lengths[group] - 1), 0),) + ((group, 0, 1),) * (age == lengths[group] - 1)
                       for group, age in state]
            for after in itertools.product(*choices):
                found = tuple(sorted((one[:2] for one in after), key=str))
                reached[found] = max(count + sum(one[2] for one in after), reached.get(found, 0))
    return max(reached.values())


def check_planned_search(check):
    """Configurations that keep to a plan make no more transitions than its inputs would without them: the scans report at
    most one of each input that may be open, for each filter of its group that begins in them."""
    # First those in which the filters are alike.
    alike = [(3, ((1, 1),)), (3, ((1, 2),)), (3, ((1, 3),)), (3, ((2, 2),)), (4, ((2, 2),)), (4, ((2, 3),))]
    for inputs, groups in (*alike, (3, ((1, 1), (1, 3))), (3, ((1, 2), (1, 3))), (4, ((2, 2), (1, 3))), (4, ((1, 1), (2, 4)))):
        for scans in range(8):
            check.equal('the most that %d scans report of %d inputs in groups of %s' % (scans, inputs, groups),
                        sum(logged_in(count, length, scans) for count, length in groups), most_planned(inputs, groups, scans))


def most_of_run(made, fates, per_block):
    """The most that wait and the longest that the record lacks one, if each scan makes this number of transitions; after it
    comes no round, a clean one or one whose answer is lost."""
    waiting, kept, most, late = [], None, 0, 0
    for scan, (count, fate) in enumerate(zip(made, fates)):
        waiting += [scan] * count
        oldest = (kept or waiting)[:1]
        most, late = max(most, len(waiting)), max([late] + [scan - one for one in oldest])
        if fate and kept is None:
            kept, waiting = waiting[:per_block], waiting[per_block:]
        if fate == CLEAN:
            kept = None
    return most, late


def lossy_run(inputs, filter_length, every, is_lost, seed):
    """The most of a run of the densest traffic with rounds begun this often, of which these are lost: the poll or, depending on
    the seed, the answer."""
    choose = random.Random(seed)
    made = [inputs * (scan % filter_length == 0) for scan in range(every * len(is_lost))]
    fates = [choose.choice((None, LOST)) if lost else CLEAN for lost in is_lost]
    return most_of_run(made, [fate for one in fates for fate in [None] * (every - 1) + [one]], PER_BLOCK)


def losses(seed):
    """Which rounds are lost: at most 5 of each 100 successive ones, as close together as the seed says."""
    choose, is_lost, close = random.Random(seed), [], seed % 5 / 5
    while len(is_lost) < 1000:
        is_lost.append(sum(is_lost[-99:]) < 5 and (choose.random() < close or choose.random() < 0.06))
    return is_lost


def check_lossy(check):
    """A round every 12 scans, at most 5 of each 100 lost, with 64 inputs and filters of 5: nothing is pushed out, and none
    is later than 71 scans, and one is."""
    found = [lossy_run(64, 5, 12, losses(seed), seed) for seed in range(200)]
    check.holds('lost rounds push none out', max(most for most, _ in found) <= WAITING[0], found)
    check.equal('with lost rounds: the latest', 71, max(late for _, late in found))


def differing_run(filters, per_block, every, lost_answer, seed):
    """The most of a run in which each input changes as often as its own filter lets it, with clean rounds this far apart; if an
    answer may be lost, one is, at a time between them."""
    choose = random.Random(seed)
    phases = [choose.randrange(length) for length in filters]
    made = [sum(scan % length == phase for length, phase in zip(filters, phases)) for scan in range(40 * every)]
    fates = [CLEAN if scan % every == 0 else LOST if lost_answer and choose.random() < 0.2 else None for scan in range(1, 40 * every + 1)]
    return most_of_run(made, fates, per_block)


def check_filters_that_differ(check):
    """Filters that differ: no more than a block waits, and none is later than n - 1 scans; with answers lost, twice that."""
    for seed in range(300):
        choose = random.Random(seed)
        filters = [choose.randint(1, 7) for _ in range(choose.randint(1, 6))]
        every = choose.randint(1, 9)
        per_block = sum(1 + (every - 1) // length for length in filters)
        for times in (1, 2):
            most, late = differing_run(filters, per_block, every, times == 2, seed)
            check.holds('filters of %s, a round every %d, %d blocks' % (filters, every, times),
                        most <= times * per_block and late <= times * every - 1, (most, late))


class Densest:
    """A script in which the open inputs change as often as their filters let them, and what it logs."""

    def __init__(self, inputs, filter_length, waiting):
        self.inputs = inputs
        self.filter = filter_length
        self.scans = 0
        self.logged = []
        self.to_module = self.to_cpu = 0
        items = b''.join(bytes([number if number < inputs else number | 0x80, filter_length, filter_length])
                         for number in range(64))
        self.lines = ['fio2070 script 3 2 0 %d %d' % (PER_BLOCK, waiting),
                      'send ' + (bytes([51, 64]) + items).hex()]
        self.deliver_to_module()
        self.to_cpu += 1
        self.scan(filter_length - 1)

    def scan(self, count):
        """A number of scans: all levels change at each one that ends a filter."""
        for _ in range(count):
            level = self.scans // self.filter % 2
            self.lines.append('scan %016x' % (ALL_ONES if level else 0))
            self.scans += 1
            if self.scans % self.filter == 0:
                self.logged += [self.scans] * self.inputs

    def deliver_to_module(self):
        self.to_module += 1
        self.lines.append('to-module %d' % self.to_module)

    def lost_round(self):
        """A poll whose answer is lost."""
        self.lines.append('poll')
        self.deliver_to_module()
        self.to_cpu += 1

    def clean_round(self):
        self.lost_round()
        self.lines.append('to-cpu %d' % self.to_cpu)

    def run(self):
        """How many entries each answer has, and the record: the time of each item, or None for a gap mark."""
        text, _ = output_of('simulate', '\n'.join(self.lines) + '\n')
        entries = [int(count) for count in re.findall(r'^\d+ block entries (\d+) ', text, re.M)]
        record = text[text.index('\nrecord '):].split('\n')[2:-1]
        return entries, [None if item == 'gap' else int(item.split()[-1]) for item in record]


class Configured(Densest):
    """Traffic like `Densest`, in which after each filter a configuration opens the next inputs instead of those that were
    open. It is delivered twice, as if its answer was lost."""

    def configure(self):
        first = (self.scans // self.filter - 1) * self.inputs
        items = [bytes([(first + place) % 64 | 0x80, self.filter, self.filter]) for place in range(self.inputs)]
        items += [bytes([(first + self.inputs + place) % 64, self.filter, self.filter]) for place in range(self.inputs)]
        self.lines.append('send ' + (bytes([51, len(items)]) + b''.join(items)).hex())
        self.deliver_to_module()
        self.lines.append('to-module %d' % self.to_module)
        self.to_cpu += 2

    def scan(self, count):
        for _ in range(count):
            super().scan(1)
            if self.scans % self.filter == 0:
                self.configure()


def check_rounds(check, row, lost_answer, traffic=Densest):
    """Clean rounds as far apart as the table says: nothing is lost, and how late the latest is."""
    latest = (row.lost if lost_answer else row.kept)[1]
    name = '%s: clean rounds of %s%s' % (traffic.__name__, row.name, ', one lost' * lost_answer)
    script = traffic(row.inputs, row.filter, WAITING[0])
    if lost_answer:
        script.lost_round()
    logged, made = [], []
    for _ in range(6):
        script.scan(row.every)
        logged.append(len(script.logged))
        made.append(script.scans)
        script.clean_round()
    entries, record = script.run()
    check.equal(name + ': the record is the front of the log', script.logged[:len(record)], record)
    ends = [sum(entries[:count + 1]) for count in range(len(entries))]
    rounds = 2 if lost_answer else 1
    check.holds(name + ': each transition comes within %d rounds' % rounds,
                all(ends[place] >= logged[place - rounds] for place in range(rounds, 6)))
    late = [made[place] - script.logged[end - count] for place, (end, count) in enumerate(zip(ends, entries)) if count]
    check.holds(name + ': no transition is more than %d scans late' % latest, max(late) <= latest, max(late))
    if row[:2] == (64, 5) or traffic is Configured:
        check.equal(name + ': the latest', latest, max(late))


def check_outage(check, row, waiting=WAITING[0], traffic=Densest):
    """An outage as long as the table says is ridden out and caught up with; one of a scan more is not."""
    length = row.outages[WAITING.index(waiting)]
    name = '%s: outage of %s, %d waiting' % (traffic.__name__, row.name, waiting)
    script = traffic(row.inputs, row.filter, waiting)
    script.scan(length)
    for _ in range(1 + -(-waiting // PER_BLOCK)):
        script.clean_round()
    check.equal(name + ': %d scans are ridden out' % length, script.logged, script.run()[1])
    script = traffic(row.inputs, row.filter, waiting)
    script.scan(length + 1)
    script.clean_round()
    check.holds(name + ': %d scans lose something' % (length + 1), None in script.run()[1])


def check_polling(check):
    """64 inputs with filters of 1, and a clean round as often as the table says: nothing is ever lost. With one scan more
    between the rounds, each leaves one more transition waiting, until there is no room for it."""
    every = planned(64, 1).every
    for scans in (every, every + 1):
        script = Densest(64, 1, WAITING[0])
        for _ in range(800):
            script.scan(scans)
            script.clean_round()
        check.equal('something is lost by clean rounds %d scans apart' % scans, scans > every, None in script.run()[1])


def check_most_waiting(check):
    """The most transitions that may wait, and then none or one more: only with one more is one lost."""
    for levels, is_lost in (('ff' * 8, False), ('fe' + 'ff' * 7, True)):
        script = Densest(64, 1, WAITING[0])
        script.scan(WAITING[0] // 64)
        script.lines.append('scan ' + levels)
        script.clean_round()
        check.equal('something is lost of %d transitions, and then %s' % (WAITING[0], levels), is_lost,
                    None in script.run()[1])


def check_restart(check):
    """A restart loses without a gap mark what waits, a block whose answer was lost, and what was pushed out: the transitions
    that may wait and those of a block, and those of four more scans."""
    for more, lost in ((0, WAITING[0] + PER_BLOCK), (4, WAITING[0] + PER_BLOCK + 4 * 64)):
        script = Densest(64, 1, WAITING[0])
        script.scan(4)
        script.lost_round()
        script.scan(15 + more)
        logged = len(script.logged) + 63
        script.lines += ['scan ' + 'ff' * 7 + '7f', 'restart', script.lines[1]]
        script.deliver_to_module()
        script.to_cpu += 1
        script.lines.append('scan ' + '00' * 8)
        script.clean_round()
        check.equal('a restart: what was logged before it', lost, logged)
        check.equal('a restart that loses %d: the record' % lost, [1] * 64, script.run()[1])


def main():
    check = Check()
    for part in (check_table, check_bounds, check_search, check_planned_search, check_room, check_polling, check_most_waiting,
                 check_restart, check_lossy, check_filters_that_differ):
        part(check)
    for row in ROWS:
        check_rounds(check, row, False)
        check_rounds(check, row, True)
        check_outage(check, row)
    for inputs, filter_length in ((64, 1), (64, 5), (32, 10), (8, 5)):
        check_outage(check, planned(inputs, filter_length), WAITING[1])
    for inputs, filter_length in ((8, 2), (16, 5), (32, 5)):
        row = planned(inputs, filter_length)
        check_rounds(check, row, False, Configured)
        check_rounds(check, row, True, Configured)
        check_outage(check, row, traffic=Configured)
    check_small_rings(check)
    check_paces(check)
    check.end()


main()
