"""Right links whose module restarts, their logs as a logger writes them, with damaged lines, and what `fiolog` finds in these."""

import itertools
import random

from fio2070 import encode

from support.links import Kind, Link

# Answers with a stamp at their end; and that with the flags.
STAMPED, STATUS = (177, 180, 181, 182), 177
# Damage to a line: it is cut, or one of its digits is none.
CUT, CHANGED = range(2)
# The least of a line that is left: its first word, a blank and a digit.
SHORTEST = 4


# The stamps above a restart: so that of 0, and those soon after, are before them.
SEEN = range(500, 1 << 31)


class Restarting(Link):
    """A link whose module restarts now and then, by a chance at each command: `restarts` has for each restart how many frames the
    log had then. What was under way arrives below it, or never; then the CPU asks for the flags until it hears them. (If the
    first stamp below a restart is not before the one above, no log shows that the module restarted.)"""

    def __init__(self, draw, kind, chance):
        self.chance, self.restarts = chance, []
        super().__init__(draw, kind)

    def wait(self):
        super().wait()
        if self.draw.random() < self.chance and self.latest_stamp() in SEEN:
            self.restart()

    def latest_stamp(self):
        """The latest that was heard; -1 where there is none."""
        return next((int.from_bytes(octets[-4:], 'big') for sent, octets in self.frames[::-1] if not sent and octets[0] in STAMPED), -1)

    def restart(self):
        """The module restarts."""
        self.module.restart()
        self.asked = None
        self.restarts.append(len(self.frames))
        self.late = self.late * self.draw.choice((0, 1))
        self.exchange(encode.status(0))
        while self.frames[-1][0] or self.frames[-1][1][0] != STATUS:
            self.exchange(encode.status(0))
        if self.draw.random() < 0.5:
            self.exchange(encode.configure_inputs([self.item(named, False) for named in range(self.kind.inputs)]))


class GoingOn(Restarting):
    """One whose CPU goes on at once after a restart, with nothing under way: the first stamp that it hears may be that of a block that
    was sent again below the restart."""
    most = 3000

    def wait(self):
        super(Restarting, self).wait()
        if self.draw.random() < self.chance and self.latest_stamp() in range(20, self.most):
            self.restart()

    def restart(self):
        latest = self.latest_stamp()
        self.module.restart()
        self.late = []
        self.scan(self.draw.randrange(latest), 0)
        self.restarts.append(len(self.frames))
        if self.draw.random() < 0.7:
            self.exchange(encode.configure_inputs([self.item(named, False) for named in range(self.kind.inputs)]))


def going_on(seed):
    """A random link of that kind. Its blocks are small or large, and many answers are lost."""
    draw = random.Random(seed)
    kind = Kind(draw.choice((40, 80, 160)), draw.choice((1, 4, 16)), draw.choice((0.01, 0.2, 0.5)), draw.choice((1, 5)), draw.choice((0.2, 0.4)),
                draw.choice((0.3, 0.6)), asks=0.5, questions=(encode.filtered_inputs(), encode.status(0)), per_block=draw.choice((255, 2)),
                waiting=draw.choice((1024, 3)))
    return GoingOn(draw, kind, draw.choice((0.02, 0.1)))


def stamp_of(octets):
    """The stamp of an answer, and whether it is that of a block that is sent again; None if it has none."""
    return (int.from_bytes(octets[-4:], 'big'), octets[0] == 182 and bool(octets[-5] & 2)) if octets[0] in STAMPED else None


def shows_restart(above, below):
    """Whether each stamp in the frames `below` a restart, through the first that is not that of a block that is sent again, is before
    the latest of those in the frames `above` it; and whether the first of them is that of such a block."""
    stamps = [stamp for sent, octets in above if not sent for stamp in [stamp_of(octets)] if stamp and not stamp[1]]
    heard = [stamp for sent, octets in below if not sent for stamp in [stamp_of(octets)] if stamp]
    if not stamps or not heard:
        return False, False
    first = next((place for place, stamp in enumerate(heard) if not stamp[1]), len(heard) - 1)
    return all(0 < (stamps[-1][0] - stamp) % (1 << 32) < 1 << 31 for stamp, _ in heard[:first + 1]), heard[0][1]


def restarting(seed, loads=0.03):
    """A random link."""
    draw = random.Random(seed)
    kind = Kind(draw.choice((40, 80, 160)), draw.choice((1, 4, 16)), draw.choice((0, 0.01, 0.2)), draw.choice((1, 5)),
                draw.choice((0, 0.05, 0.2)), draw.choice((0, 0.05, 0.2)), loads=draw.choice((0, loads)), pauses=draw.choice((0, 0.02)))
    return Restarting(draw, kind, draw.choice((0, 0.02, 0.1)))


def lines_of(frames):
    """A line for each frame."""
    return ['%s %s' % ('TX' if sent else 'RX', octets.hex(' ').upper()) for sent, octets in frames]


def damaged(lines, draw, chance):
    """The lines, of which some are damaged below the first block: above it nothing shows how frames are written, and a damaged line is
    not seen."""
    first = next((place for place, line in enumerate(lines) if line.startswith('RX B6')), len(lines)) + 1
    return lines[:first] + [spoiled(line, draw) if len(line) > SHORTEST + 1 and draw.random() < chance else line for line in lines[first:]]


def spoiled(line, draw):
    """A damaged line."""
    place = draw.randrange(SHORTEST, len(line) - 1)
    return line[:place] if draw.choice((CUT, CHANGED)) == CUT else line[:place] + '?' + line[place + 1:]


def found_in(lines, **settings):
    """What the rules find in a log: pairs of a line's number and a rule or `restarted`; and what is not judged."""
    from fiolog.judgement import Judgement
    from fiolog.reader import Reader
    from fiolog.rules import Rules
    reader, judgement = Reader(), Judgement(Rules(**settings))
    batches = itertools.chain(reader.feed(('\n'.join(lines) + '\n').encode()), reader.end())
    found = [one for batch in batches for _, *one in judgement.take(batch)]
    found += judgement.end()
    return [(event.number, one.rule) for event, one in found], judgement.unjudged


def fault_of(told, first, restarts):
    """What is wrong in what is found in the log of a right link from its frame `first` on: a breach, or a restart where the module
    did not restart since the one before."""
    above = first
    for line, rule in told:
        place = first + line - 1
        if rule != 'restarted':
            return line, rule
        if not any(above < restart <= place for restart in restarts):
            return line, 'no restart'
        above = place
    return None
