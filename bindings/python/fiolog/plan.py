"""`fiolog plan`: the row of docs/PLANNING.md for a setting, and the least pace over a line. Each number has its clause."""

from fio2070 import Line, plan

from . import terminal
from .options import number_in
from .output import Refused
from .protocol import BLOCK_ENTRIES, INPUTS, MOST_WAITING, STANDARD_WAITING

WAITING = {'standard': STANDARD_WAITING, 'largest': MOST_WAITING}
# What limits the pace: what a block takes, or what may wait.
PACES = {False: '`enough` of `FewChange`', True: '`room` of `IsPolledInTime`'}
# Of each `EACH` rounds in a row at most `LOST` are lost.
EACH, LOST = 100, 5
MOST_FILTER, MOST_SCANS, MOST_RATE = 255, 1 << 31, (1 << 32) - 1
# Parts in a million by which a clock of a crystal is wrong at most, and a clock of any kind.
CRYSTAL, MOST_DRIFT, MILLION = 100, 10_000, 1_000_000
MOST_JITTER = (1 << 16) - 1


def add_arguments(parser):
    parser.add_argument('--inputs', type=number_in(1, INPUTS), required=True, metavar='N',
                        help='inputs that are not ignored, 1 to %d' % INPUTS)
    parser.add_argument('--filter', type=number_in(0, MOST_FILTER), required=True, metavar='N',
                        help='the smallest filter of one of them, 0 to 255')
    parser.add_argument('--limits', choices=WAITING, default='standard',
                        help='{:,} entries wait (standard) or {:,}'.format(*WAITING.values()))
    parser.add_argument('--block', type=number_in(1, BLOCK_ENTRIES), default=BLOCK_ENTRIES, metavar='N',
                        help='a block takes N entries, 1 to %d' % BLOCK_ENTRIES)
    parser.add_argument('--waiting', type=number_in(1, MOST_WAITING), metavar='N',
                        help='instead of --limits: N entries wait, 1 to {:,}'.format(MOST_WAITING))
    parser.add_argument('--rate', type=number_in(1, MOST_RATE), metavar='BITS', help='the line carries so many bits in a second')
    kind = parser.add_mutually_exclusive_group()
    kind.add_argument('--sync', action='store_true', help='the line is synchronous (SDLC)')
    kind.add_argument('--async', dest='stop_bits', type=number_in(1, 2), nargs='?', const=1, metavar='STOP',
                      help='it is asynchronous, with 1 or 2 stop bits')
    parser.add_argument('--answer-time', type=number_in(0, MOST_SCANS), default=0, metavar='MS',
                        help='the module begins its answer so late')
    parser.add_argument('--drift', type=number_in(0, MOST_DRIFT), default=CRYSTAL, metavar='PPM',
                        help='the clock of the CPU is faster or slower than that of the module by at most so many parts in a million, '
                             '0 to {:,}; {} if not given'.format(MOST_DRIFT, CRYSTAL))
    parser.add_argument('--jitter', type=number_in(0, MOST_JITTER), default=0, metavar='MS',
                        help='polls are up to MS late by that clock, 0 to {:,}'.format(MOST_JITTER))
    parser.add_argument('-v', '--verbose', action='store_true', help='also the clause that each number is from')
    parser.add_argument('--json', action='store_true', help='a list of objects')


def most_exact(inputs, filter_length, per_block, every, lag):
    """The most entries that wait and the most scans that one is late, with blocks and filters counted whole, if the blocks lag
    by `lag` scans at most."""
    waiting = max(inputs * -(-(j * every + lag) // filter_length) - per_block * j for j in range(filter_length + 1))
    late = max(j * every - filter_length * (per_block * j // inputs) for j in range(inputs))
    return waiting, lag - 1 + late


def by_clock(apart, drift, jitter):
    """How often a CPU may poll by its own clock if its polls may be `apart` scans apart, and how far apart they then are at most."""
    every = max((apart - jitter) * MILLION // (MILLION + drift), 0)
    return every, every and -(-every * (MILLION + drift) // MILLION) + jitter


def row(inputs, length, per_block, waiting, clock):
    """The rows without a rate: a name, a number with its unit, and where it is from."""
    longest = per_block * length // inputs
    within = waiting * length // inputs - (length - 1)
    every, apart = by_clock(min(longest, within), *clock)
    yield 'poll every', '%d ms' % every, PACES[within < longest]
    if every > 0:
        yield from bounds(inputs, length, per_block, every, apart, by_clock(min(longest, within // 2), *clock))
    yield ('outage without loss, at most', '%d ms' % (waiting // inputs * length),
           '`room` of `IsOutage`; `outage` of `settled_links_lose_nothing`')
    if every > 0:
        yield 'outage within the pace, at most', '%d ms' % within, '`possible` of `outages_within_a_pace`'
        yield from lossy(inputs, length, per_block, longest, within, clock)


def bounds(inputs, length, per_block, every, apart, lost):
    """What waits and how late it is, with a poll every `every` ms, at most `apart` scans apart; `lost` has both if answers may be lost."""
    waits, late = most_exact(inputs, length, per_block, apart, apart)
    yield 'entries that wait, at most', waits, '`few_wait` of `KeepsUpExactly`'
    yield 'late, at most', '%d ms' % late, '`young` of `KeepsUpExactly`'
    every_lost, apart_lost = lost
    if every_lost < every:
        yield 'poll every, answers lost', '%d ms' % every_lost, PACES[True]
    if every_lost > 0:
        waits, late = most_exact(inputs, length, per_block, apart_lost, 2 * apart_lost)
        yield 'entries that wait, at most, answers lost', waits, '`few_wait` of `KeepsUpExactly`'
        yield 'late, at most, answers lost', '%d ms' % late, '`exactly` of `IsLateBy`'


def lossy(inputs, length, per_block, longest, within, clock):
    """The pace and the lateness if at most `LOST` of each `EACH` rounds are lost, a clean one makes up for `longest` scans, and the
    blocks may lag by `within` scans. The fewest scans for which a clean round has to make up give the least lateness."""
    every, apart = by_clock(min((EACH - 1 - LOST) * longest // (EACH - 1), within // (LOST + 1)), *clock)
    if every > 0:
        name = '%d of each %d rounds lost' % (LOST, EACH)
        yield 'begin a round every, ' + name, '%d ms' % every, '`lost_rounds`'
        fewest = -(-(EACH - 1) * apart // (EACH - 1 - LOST))
        late = most_exact(inputs, length, per_block, fewest, (LOST + 1) * apart)[1]
        yield 'late, at most, ' + name, '%d ms' % late, '`exactly` of `IsLateBy`'


def least_rate(line):
    """The least rate at which the line has a pace, or None: more bits in a second never take a pace away."""
    few, many = 0, MOST_RATE
    if not plan(line._replace(rate=many)):
        return None
    while many - few > 1:
        rate = (few + many) // 2
        few, many = (few, rate) if plan(line._replace(rate=rate)) else (rate, many)
    return many


def ways_out(line):
    """What gives the line a pace, each by itself: a longer filter, fewer inputs, a higher rate."""
    length = next((one for one in range(line.filter + 1, MOST_FILTER + 1) if plan(line._replace(filter=one))), None)
    if length:
        yield 'a filter of at least', str(length)
    inputs = next((one for one in range(line.inputs - 1, 0, -1) if plan(line._replace(inputs=one))), None)
    if inputs:
        yield 'or at most', '%d inputs' % inputs
    rate = least_rate(line)
    if rate:
        yield 'or a rate of at least', '{:,} bit/s'.format(rate)


def at_rate(line):
    """The rows over a line of a rate."""
    pace, name = plan(line), 'at {:,} bit/s'.format(line.rate)
    if pace:
        source = '`%s` of `arrives_in_time_at_a_rate`'
        yield name + ': poll every, at least', '%d ms' % pace.scans, '`least` of `plan`'
        yield 'a round takes, at most', '%d ms' % pace.round, source % 'ends'
        yield 'late until recorded, at most', '%d ms' % pace.late, source % 'late'
        yield 'of the line, at most', '%.1f %%' % (pace.load / 10), '`load` of `plan`'
    else:
        yield name, 'no pace', '`none` of `plan`'
        for what, number in ways_out(line):
            yield what, number, '`plan` at each'


def run(option):
    """Writes the row."""
    if (option.rate is None) != (not option.sync and option.stop_bits is None):
        raise Refused('--rate goes with --sync or --async')
    waiting, length = option.waiting or WAITING[option.limits], max(option.filter, 1)
    rows = list(row(option.inputs, length, option.block, waiting, (option.drift, option.jitter)))
    if option.rate:
        rows += at_rate(Line(option.rate, option.inputs, length, option.stop_bits or 0, option.answer_time, per_block=option.block,
                             waiting=waiting, drift=option.drift, jitter=option.jitter))
    if option.json:
        terminal.print_object([{'what': what, 'number': number, 'from': source} for what, number, source in rows], indent=1)
    else:
        names = ['what', 'number', 'from'][:3 if option.verbose else 2]
        limits = 'blocks of %d, %s wait' % (option.block, '{:,}'.format(waiting))
        if option.block == BLOCK_ENTRIES and not option.waiting:
            limits = option.limits + ' limits'
        if option.drift:
            limits += ', a clock within {:,} ppm'.format(option.drift)
        if option.jitter:
            limits += ', polls up to {:,} ms late'.format(option.jitter)
        terminal.table('%d open inputs with filters of at least %d, %s' % (option.inputs, option.filter, limits), names,
                       [one[:len(names)] for one in rows])
    return 0
