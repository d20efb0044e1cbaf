"""How many single faults of random right links the library finds, beside the most that can be found, and the table of
docs/TESTS.md that says so."""

import random
from collections import Counter

from support.faults import FAULTS, with_fault
from support.links import Kind, Link, check_breach, content_breach
from support.page_table import PageTable

LINKS = 1000
NAMES = [fault.__name__ for fault in FAULTS]
# Where the fault is: in a log that is judged from its first command on, below its first clear block; in one that begins with
# both ends and is judged as such; in one that is judged from its first command on.
PLACES = ('below a clear block', 'both ends', 'anywhere')
HEAD = '| An entry is | %s |\n|---|---|---|---|\n' % ' | '.join(PLACES)
TABLE = PageTable('TESTS.md', HEAD)
# In how many of these logs no right link explains the fault, so that it can be found. Each log in which nothing is found was
# decided by a search, not in this repository, for samples, losses, scans and earlier configurations that lead to it.
LIMITS = {'below a clear block': (685, 796, 776, 777), 'both ends': (848, 938, 934, 931), 'anywhere': (736, 856, 830, 838)}


def link_of(seed):
    """A link, and what draws its faults."""
    draw = random.Random(seed)
    kind = Kind(commands=draw.choice((20, 50)), inputs=draw.choice((2, 3, 6)), change=draw.choice((0.03, 0.1, 0.3)),
                longest=draw.choice((1, 3, 6)), lost=draw.choice((0.1, 0.4)), unheard=draw.choice((0.1, 0.5)),
                configures=draw.choice((0, 0.08, 0.08)))
    return Link(draw, kind), draw


def clear_block(frames):
    """The index of the first block answer with neither C nor E."""
    return next((place for place, (_, octets) in enumerate(frames) if octets[0] == 182 and not octets[-5] & 10), len(frames))


def count():
    """For each place and fault, in how many logs it is, and in how many of these it is found."""
    logs, found = Counter(), Counter()
    for seed in range(LINKS):
        link, draw = link_of(seed)
        for fault in FAULTS:
            faulty = with_fault(link.frames, fault, draw)
            if not faulty:
                continue
            frames, at = faulty
            seen = [bool(check_breach(frames, begun) or content_breach(frames, begun)) for begun in (False, True)]
            for place in PLACES if at > clear_block(link.frames) else PLACES[1:]:
                logs[place, fault.__name__] += 1
                found[place, fault.__name__] += seen[place == 'both ends']
    return logs, found


def table_of(logs, found):
    """The rows of the table: in each place what is found and what can be, in percent, and the number of logs."""
    def cell(place, name):
        number, most = logs[place, name], LIMITS[place][NAMES.index(name)]
        return '%.1f / %.1f of %d' % (100 * found[place, name] / number, 100 * most / number, number)
    return ''.join('| %s | %s |\n' % (name, ' | '.join(cell(place, name) for place in PLACES)) for name in NAMES)


def fault_of_limits(found):
    """Nothing is found that a right link explains."""
    return [(place, name) for place in PLACES for name, most in zip(NAMES, LIMITS[place]) if found[place, name] > most]
