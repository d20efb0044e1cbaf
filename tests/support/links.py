"""Random right links, and what the library finds in a log. A link is a CPU, a module of `libfio2070` and a bus. A command
reaches the module at most once and in order, at once or after later commands; its answer comes directly after it or never."""

from typing import NamedTuple, Tuple

import fio2070
from fio2070 import ConfigurationItem, encode


HIGH = 2 ** 64 - 1                             # the levels at the start
# Commands that neither poll nor configure nor load, of each type that has an answer.
QUESTIONS = (encode.status(0), encode.status(0x80), encode.status(0xff), encode.raw_inputs(), encode.filtered_inputs(),
             encode.filtered_inputs(), encode.set_outputs(bytes(8), bytes(8)), encode.watchdog(50), encode.identify())


class Kind(NamedTuple):
    """What a link is like; chances are 0 to 1."""
    commands: int                              # how many the CPU sends
    inputs: int                                # how many change
    change: float                              # the chance that an input changes in a scan
    longest: int                               # the longest filter
    lost: float                                # the chance that a command does not arrive at once
    unheard: float                             # the chance that an answer is lost
    configures: float = 0.08                   # shares of commands: configurations,
    loads: float = 0                           # loads of the counter,
    asks: float = 0.12                         # and those of `questions`; the rest are polls
    questions: Tuple[bytes, ...] = (encode.filtered_inputs(), encode.filtered_inputs(), encode.filtered_inputs(), encode.status(0))
    pauses: float = 0                          # the chance that more than a minute passes after a command
    per_block: int = 255
    waiting: int = 1024


class Link:
    """A link that runs: `frames` is its log, for each frame whether the CPU sent it, and its octets."""

    def __init__(self, draw, kind):
        self.draw, self.kind, self.levels, self.frames = draw, kind, HIGH, []
        self.module = fio2070.Module(per_block=kind.per_block, waiting=kind.waiting)
        self.poller = fio2070.Poller(draw.randrange(256))
        self.late = []                         # the indexes of commands that the module may still receive
        self.asked = None                      # that of the load which the next line sync does
        self.loads = []                        # of each load that was done: its index, and how many frames the log had then
        self.exchange(encode.configure_inputs([self.item(named, False) for named in range(kind.inputs)]))
        for _ in range(kind.commands - 1):
            self.exchange(self.command())
            self.wait()

    def item(self, named, ignore):
        return ConfigurationItem(named, ignore, self.draw.randint(0, self.kind.longest), self.draw.randint(0, self.kind.longest))

    def command(self):
        """The next command."""
        draw, kind = self.draw, self.kind
        chance = draw.random()
        if chance < kind.configures:
            items = [self.item(draw.randrange(kind.inputs), draw.random() < 0.25) for _ in range(draw.randint(1, kind.inputs))]
            return encode.configure_inputs(items + [ConfigurationItem(64, False, 1, 1)] * (draw.random() < 0.05))
        if chance < kind.configures + kind.loads:
            return encode.load_counter(draw.choice((0, draw.randrange(1 << 32), (self.module.counter + draw.randint(-50, 50)) % (1 << 32))))
        if chance < kind.configures + kind.loads + kind.asks:
            return draw.choice(kind.questions)
        return self.poller.poll()

    def exchange(self, command):
        """Sends a command. What the module has not received before is received above it, or lost."""
        self.late.append(len(self.frames))
        self.frames.append((True, command))
        self.scan(self.draw.choice((0, 0, 0, 1, 2)))
        if self.draw.random() < self.kind.lost:
            return
        while len(self.late) > 1:
            place = self.late.pop(0)
            if self.draw.random() < 0.5:
                self.receive(place)
                self.scan(self.draw.choice((0, 1)))
        answer = self.receive(self.late.pop())
        self.scan(self.draw.choice((0, 0, 0, 1, 2)))
        if answer and self.draw.random() >= self.kind.unheard:
            self.frames.append((False, answer))
            self.poller.hear(answer)

    def receive(self, place):
        """The module receives the command with this index."""
        command = self.frames[place][1]
        if command[0] == 50:
            self.asked = place
        return self.module.receive(command)

    def scan(self, count, change=None):
        """Scans with inputs that change."""
        change = self.kind.change if change is None else change
        for _ in range(count):
            for named in range(self.kind.inputs if change else 0):
                self.levels ^= (self.draw.random() < change) << named
            self.module.scan(self.levels)
            if self.kind.loads and self.draw.random() < 0.1:
                self.sync()

    def sync(self):
        """LINESYNC rises."""
        self.module.line_sync()
        if self.asked is not None:
            self.loads.append((self.asked, len(self.frames)))
            self.asked = None

    def wait(self):
        """The time until the next command."""
        self.scan(self.draw.choice((0, 1, 2, 3, 8, 20)) if self.draw.random() < 0.9 else self.draw.choice((30, 60)))
        if self.draw.random() < self.kind.pauses:
            self.scan(self.draw.randrange(65_400, 70_000), 0)
            self.scan(self.draw.randrange(20))

    def beginnings(self):
        """The indexes of the commands from which on the log is one that `record` may not accuse: no more loads are ever done in it
        than were sent in it."""
        return [place for place, (sent, _) in enumerate(self.frames) if sent and self.may_begin(place)]

    def may_begin(self, place):
        sent = [at for at, (sent, octets) in enumerate(self.frames) if sent and octets[0] == 50 and at >= place]
        done = [done for _, done in self.loads if done > place]
        return all(sum(at < time for at in sent) > turn for turn, time in enumerate(done))


def check_breach(frames, begun, per_block=255):
    """The first breach of a rule of `check` that the library finds: the index of the frame, and the rule's number. With `begun`
    the log begins with the start of both ends."""
    checker = fio2070.Checker(per_block, anywhere=not begun)
    for place, (sent, octets) in enumerate(frames):
        broken = (checker.sent if sent else checker.heard)(octets)
        if broken:
            return place, broken.rule
    return None


def content_breach(frames, begun):
    """The first breach of a rule on content that the library finds: the index of the frame, the rule's number, and the input."""
    checker = fio2070.ContentChecker(begun)
    for place, (sent, octets) in enumerate(frames):
        broken = (checker.sent if sent else checker.heard)(octets)
        if broken:
            return place, broken.rule, broken.input
    return None
