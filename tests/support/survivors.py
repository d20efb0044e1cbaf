"""How many single faults in logs of right links `fiolog check` still finds if lines of the log are damaged, and the table of
docs/CAPTURES.md that says so."""

import random
from collections import Counter

from support.faults import doubled, dropped, swapped, turned, with_fault
from support.links import Kind, Link
from support.page_table import PageTable
from support.restarting import damaged, found_in, lines_of

SEEDS, LINKS = (1, 2, 3), 40        # each seed has this many links
CHANCES = (0.01, 0.02, 0.05, 0.1)   # of a line to be damaged
HEAD = '| Fault | %s |\n|---|%s\n' % (' | '.join('%d %%' % round(100 * chance) for chance in CHANCES), '---|' * len(CHANCES))
TABLE = PageTable('CAPTURES.md', HEAD)
KIND = Kind(commands=300, inputs=8, change=0.02, longest=5, lost=0.01, unheard=0.02, configures=0.005, asks=0.1)
# On a street an input changes each two seconds.
STREET = KIND._replace(commands=3000, change=0.0005)
POLL, BLOCK, STAMPED = 54, 182, (177, 180, 181, 182)
AGAIN, LOST = 2, 4


def of_entry(fault):
    """A fault of an entry, if there is one for it."""
    return lambda frames, draw: (with_fault(frames, fault, draw) or (frames,))[0]


def places_of(frames, types):
    """The indexes of frames of these types, without the first few of the log."""
    return [place for place, (_, octets) in enumerate(frames) if octets[0] in types][5:]


def in_answer(types, edit):
    """A fault of an answer of one of these types."""
    def fault(frames, draw):
        place = draw.choice(places_of(frames, types))
        octets = bytearray(frames[place][1])
        edit(octets, draw)
        return [*frames[:place], (False, bytes(octets)), *frames[place + 1:]]
    return fault


def renumbered(octets, draw):
    octets[1] = (octets[1] + draw.randint(1, 254)) % 256


def with_status(bit):
    """Sets a bit of the status."""
    def edit(octets, _):
        octets[-5] |= bit
    return edit


def set_back(octets, draw):
    octets[-4:] = max(int.from_bytes(octets[-4:], 'big') - draw.randint(500, 5000), 0).to_bytes(4, 'big')


def answered_twice(frames, draw):
    place = draw.choice([place for place, (sent, _) in enumerate(frames) if not sent])
    return [*frames[:place + 1], *frames[place:]]


def passing_over(frames, draw):
    """The CPU passes over a number, and goes on from there."""
    place = draw.choice(places_of(frames, (POLL,)))
    return frames[:place] + [(sent, octets if octets[0] not in (POLL, BLOCK) else octets[:1] + bytes([(octets[1] + 1) % 256]) + octets[2:])
                             for sent, octets in frames[place:]]


FAULTS = {
    'a block has another number': in_answer((BLOCK,), renumbered),
    'a block says E, and was not asked for again': in_answer((BLOCK,), with_status(AGAIN)),
    'a block says F without C': in_answer((BLOCK,), with_status(LOST)),
    'an answer is there twice': answered_twice,
    'the CPU passes over a number': passing_over,
    'an entry is doubled': of_entry(doubled),
    'an entry has the other state': of_entry(turned),
    'an entry is dropped': of_entry(dropped),
    'two entries are exchanged': of_entry(swapped),
    'a stamp is too early': in_answer(STAMPED, set_back),
}


# Faults by their kinds, each with the least percentage of them that is found if 2 % of the lines are damaged.
FLOORS = {
    'of messages': (85, ('a block has another number', 'a block says E, and was not asked for again', 'a block says F without C',
                         'an answer is there twice', 'the CPU passes over a number')),
    'of an entry alone': (75, ('an entry is doubled', 'an entry has the other state')),
}


# Those that break rules on time alone, which a load of the counter may explain, are also looked for with --no-loads.
ON_TIME = ('two entries are exchanged', 'a stamp is too early')


# Those that show how long it takes until an input changes again are also looked for on a street.
ON_STREET = 'an entry has the other state', 'an entry is dropped'
BUSY, ALL = ((KIND, '', FAULTS),), ((KIND, '', FAULTS), (STREET, ', on a street', ON_STREET))


def unloaded(name):
    """The name of a fault that is looked for so."""
    return name + ', `--no-loads`'


def count_fault(found, name, lines, seed, chances):
    """Counts a fault of this name in a log, if it is found there."""
    if not found_in(lines)[0]:
        return
    found[name, 0] += 1
    found[unloaded(name), 0] += 1
    for chance in chances:
        spoiled = damaged(lines, random.Random('%s%s %s' % (name, seed, chance)), chance)
        found[name, chance] += bool(found_in(spoiled)[0])
        found[unloaded(name), chance] += name in ON_TIME and bool(found_in(spoiled, no_loads=True)[0])


def count(seeds=SEEDS, links=LINKS, chances=CHANCES, logs=ALL):
    """For each fault how often it is found in logs without damage, and, by the chance of damage, in how many of these it still is."""
    found = Counter()
    for number in range(len(seeds) * links):
        seed = '%d of seed %d' % (number // len(seeds), seeds[number % len(seeds)])
        for kind, where, names in logs:
            link = Link(random.Random(seed), kind)
            for name in names:
                count_fault(found, name + where, lines_of(FAULTS[name](link.frames, random.Random(name + seed))), seed, chances)
    return found


def percent(found, names, chance):
    """How many of the faults of these names are still found."""
    return 100 * sum(found[name, chance] for name in names) / sum(found[name, 0] for name in names)


def fault_of_floors():
    """With 2 % of the lines damaged, most faults are still found."""
    found = count(SEEDS[:1], 20, (0.02,), BUSY)
    shares = {kind: percent(found, names, 0.02) for kind, (_, names) in FLOORS.items()}
    return {kind: share for kind, share in shares.items() if share < FLOORS[kind][0]}


def table_of(found):
    """The rows of the table."""
    names = *FAULTS, *map(unloaded, ON_TIME), *(name + where for _, where, names in ALL[1:] for name in names)
    return ''.join('| %s | %s |\n' % (name, ' | '.join('%.0f' % percent(found, (name,), chance) for chance in CHANCES)) for name in names)
