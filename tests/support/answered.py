"""Random logs of right links, taken at the CPU, at the module or on the bus, and what is known of each by how it was made. The link is
written from docs/PROTOCOL.md: a module of few waiting entries, a bus that loses frames, and a CPU that asks again for what it did not
hear, or one whose number rises with each poll."""

import random
from typing import NamedTuple, Optional

INPUTS, FILTER, PER_BLOCK, WAITING, SECOND = 4, 20, 2, 8, 1000
MORE, LOST, AGAIN, GAP = 8, 4, 2, 1         # C, F, E, G
END = 1 << 32                               # of the counter
CONFIGURATION = bytes([51, INPUTS]) + b''.join(bytes([named, FILTER, FILTER]) for named in range(INPUTS))
# Where a log was taken. There are the frames that the CPU sends, those that the module receives, those that it sends, and those that the
# CPU hears.
SENT, RECEIVED, ANSWERED, HEARD = range(4)
PLACES = {'cpu': (SENT, HEARD), 'module': (RECEIVED, ANSWERED), 'bus': (SENT, ANSWERED)}
# What happens in logs: commands and answers are lost, commands alone, the buffer overflows, lines are not logged, the module restarts, the
# counter is loaded.
KINDS = ('plain', 'plain lossy', 'plain plain plain outage', 'plain plain lossy cut over', 'plain plain cut restart load', 'plain plain over restart lossy',
         'plain load', 'plain plain plain lossy outage', 'cut')


class Block(NamedTuple):
    """An answer to a poll: which block of the module it is, in which of the module's lives, how many numbers were passed over above it, and the
    counter without its end."""
    place: int
    life: int
    passed: int
    counter: int
    number: int
    entries: int
    status: int


class Frame(NamedTuple):
    """A frame: its time in milliseconds, its sender, its octets, where it is, of an answer to a poll its block, and of a poll where its answer is."""
    time: int
    side: str
    octets: bytes
    where: tuple
    block: Optional[Block] = None
    answered: tuple = ()


class Module:
    """A module."""

    def __init__(self):
        self.life = self.made = 0
        self.start(0)

    def start(self, now):
        """It starts, or is restarted."""
        self.life, self.zero, self.states = self.life + 1, now, [1] * INPUTS
        self.waiting, self.is_over, self.is_open, self.kept = [], False, False, None

    def change(self, named, now):
        """A transition of an input."""
        self.states[named] ^= 1
        if self.is_open:
            self.waiting.append(bytes([named | self.states[named] << 7]) + (now - self.zero & 0xffff).to_bytes(2, 'big'))
            self.is_over |= len(self.waiting) > WAITING
            self.waiting = self.waiting[-WAITING:]

    def poll(self, number, now):
        """The answer to a poll, and its block."""
        if self.kept and self.kept[1].number == number:
            octets, block = self.kept
            status = block.status & (MORE | LOST) | AGAIN
            return octets[:-5] + bytes([status]) + octets[-4:], block._replace(status=status)
        passed = (number - self.kept[1].number - 1) % 256 if self.kept else 0
        taken, self.waiting = self.waiting[:PER_BLOCK], self.waiting[PER_BLOCK:]
        status, self.is_over = MORE * bool(self.waiting) | LOST * self.is_over | GAP * (passed > 0), False
        self.made += 1
        block = Block(self.made, self.life, passed, now - self.zero, number, len(taken), status)
        self.kept = bytes([182, number, len(taken)]) + b''.join(taken) + bytes([status]) + (block.counter % END).to_bytes(4, 'big'), block
        return self.kept


class Link:
    """A link that runs: `frames` are all that were sent, of which some are not logged anywhere."""

    def __init__(self, draw, kind, does_rise):
        self.draw, self.does_rise, self.frames, self.now, self.module = draw, does_rise, [], 0, Module()
        self.number, self.is_logged, self.started = draw.randrange(256), True, 0
        chances, self.loss = kind.split(), 0.04 if does_rise else 0.15
        self._configure()
        for _ in range(draw.choice((8, 20, 60))):
            self._step(draw.choice(chances))

    def _write(self, side, octets, where, **more):
        self.now += 5
        if self.is_logged:
            self.frames.append(Frame(self.now, side, octets, where, **more))

    def _exchange(self, command, answer):
        """A command that arrives, and its answer, which the CPU hears."""
        self._write('>', command, (SENT, RECEIVED))
        self._write('<', answer, (ANSWERED, HEARD))

    def _configure(self):
        """The CPU opens the inputs."""
        self._exchange(CONFIGURATION, bytes([179, 0]))
        self.module.is_open = True

    def _changes(self, count):
        """So many inputs change, in a second."""
        for place in range(count):
            self.module.change(self.draw.randrange(INPUTS), self.now + 50 + place * 50)
        self.now += SECOND

    def _step(self, event):
        """Something happens, and then the CPU polls until it has a block, or once."""
        counter = self.now - self.module.zero
        if event == 'restart' and 4 * SECOND < counter < END // 2:
            self._restart()
        elif event == 'load' and 4 * SECOND < counter < END // 2:
            value = self.draw.choice((0, counter - 3 * SECOND, counter + 9 * SECOND, END - 5 * SECOND))
            self._exchange(bytes([50]) + value.to_bytes(4, 'big'), bytes([178, 0]))
            self.module.zero = self.now - value
            self._round(0)
        elif event == 'cut':
            self.is_logged = False
            for _ in range(self.draw.randint(1, 40)):
                self._round(0)
            self.is_logged = True
            self._round(0)
        else:
            self._changes(self.draw.randint(WAITING + 1, 14) if event == 'over' else 0)
            for _ in range(self.draw.randint(1, 3) if event == 'outage' else 0):
                self._poll(True, True)
                self._changes(self.draw.randint(0, 1))
            self._round(self.loss if event == 'lossy' else 0)

    def _restart(self):
        """The module is restarted, above the first poll for a block or below polls whose answers were lost."""
        if self.draw.random() < 0.3 and not self.does_rise:
            self._poll(self.draw.random() < 0.5, True)
        self.module.start(self.now)
        if self.draw.random() < 0.5:
            self._round(0)
        self._configure()
        self._round(0)

    def _poll(self, is_lost, is_unheard):
        """A poll, of which the command or the answer may be lost. Returns whether the CPU hears a block."""
        is_heard = not is_lost and not is_unheard
        answered = () if is_lost else (ANSWERED, HEARD) if is_heard else (ANSWERED,)
        self._write('>', bytes([54, self.number]), (SENT,) if is_lost else (SENT, RECEIVED), answered=answered)
        if not is_lost:
            octets, block = self.module.poll(self.number, self.now)
            self._write('<', octets, answered, block=block)
        self.number = (self.number + (self.does_rise or is_heard)) % 256
        return is_heard

    def _round(self, loss):
        """Some inputs change, and the CPU polls."""
        self._changes(self.draw.randint(0, 2))
        while not self._poll(self.draw.random() < loss, self.draw.random() < loss) and not self.does_rise:
            self._changes(self.draw.randint(0, 1))


class Made:
    """A log and what is known of it. `places` has how often each kind of place is in it, and how many `blocks` are not in it; `whole` and `all` are the
    milliseconds in stretches and between the first and the last block, by lines and by stamps; `unanswered` are the polls without an answer."""

    def __init__(self, seed):
        draw = random.Random(seed)
        self.place, self.does_rise, self.has_commands = draw.choice(list(PLACES)), draw.random() < 0.3, draw.random() < 0.8
        self.kind = draw.choice(KINDS)
        self.frames = [frame for frame in Link(draw, self.kind, self.does_rise).frames if self._has(frame.where) and (self.has_commands or frame.side == '<')]
        del self.frames[:draw.choice((0, 0, draw.randint(0, min(9, len(self.frames) // 2))))]
        self.places = dict.fromkeys(('lost', 'missing', 'blocks', 'passed_over', 'unknown', 'restarts'), 0)
        self.whole, self.all, self.recorded, self.loads, self.is_loaded = [0, 0], [0, 0], 0, 0, False
        self.made, self.polls = [], []          # each block at its first answer in the log; the times of polls
        self.first_lost = None      # the place of the first block with F, its time, and how long no poll came
        for place, frame in enumerate(self.frames):
            self._take(place, frame)
        self.times = [frame.time for frame in self.frames if frame.block]
        self.unanswered = sum(frame.octets[0] == 54 and not self._has(frame.answered) for frame in self.frames[:-1])

    def _has(self, where):
        """Whether the log has what is there."""
        return any(place in PLACES[self.place] for place in where)

    def _take(self, place, frame):
        """Takes a frame of the log."""
        if frame.octets[0] == 54:
            self.polls.append(frame.time)
        elif frame.octets[0] == 50:
            self.loads, self.is_loaded = self.loads + 1, True
        elif frame.block and not (self.made and self.made[-1].block.place == frame.block.place):
            self._take_block(place, frame)

    def _take_block(self, place, frame):
        """Takes a block that is not the latest one again."""
        above, is_lost = self.made[-1] if self.made else None, frame.block.status & LOST > 0
        kind = self._kind(above.block, frame.block) if above else ''
        if kind:
            self.places[kind] += 1
        if is_lost:
            self.places['lost'] += 1
            self.first_lost = self.first_lost or (place, frame.time, self.polls[-1] - self.polls[-2] if len(self.polls) > 1 else None)
        for by, passed in enumerate((frame.time - above.time, max(0, frame.block.counter - above.block.counter)) if above else ()):
            self.all[by] += passed
            self.whole[by] += passed * (not kind and not is_lost)
        self.recorded += frame.block.entries
        self.made.append(frame)
        self.is_loaded = False

    def _kind(self, above, block):
        """What is between two blocks, as far as a log can say it."""
        if block.life != above.life or block.counter < above.counter:
            return 'unknown' if self.is_loaded else 'restarts'
        between = block.place - above.place - 1
        if block.status & AGAIN and between:
            return 'unknown'
        if block.passed:
            return 'passed_over' if between or block.passed > 1 else ''
        self.places['blocks'] += between
        return 'missing' if between else ''
