"""Runs of the proved ends on a bus that loses, repeats and delays frames, as docs/PROTOCOL.md describes it, with a CPU that
waits for an answer only until a deadline: the log has answers that come late and twice. Faults can be planted in either
end."""

import random

import fio2070
from fio2070 import ConfigurationItem, encode

ALL = 2 ** 64 - 1
ABSENT = [ConfigurationItem(64, False, 1, 1)]
# Commands other than polls. 56 has no answer.
OTHERS = [encode.status(0), encode.raw_inputs(), encode.filtered_inputs(), encode.identify(), encode.watchdog(50),
          encode.configure_inputs(ABSENT), bytes([56])]


class Bus:
    """One direction: no frame overtakes another, and a repeat comes directly after its frame."""

    def __init__(self, dice, lose, repeat, delay):
        self.dice, self.lose, self.repeat, self.delay, self.last, self.frames = dice, lose, repeat, delay, 0, []

    def send(self, now, octets):
        if self.dice.random() < self.lose:
            return
        for _ in range(2 if self.dice.random() < self.repeat else 1):
            self.last = max(self.last, now + self.dice.randint(0, self.delay))
            self.frames.append((self.last, octets))

    def come(self, now):
        """The frames that arrive now."""
        came = [octets for at, octets in self.frames if at <= now]
        self.frames = [frame for frame in self.frames if frame[0] > now]
        return came


class Cpu:
    """A CPU with one command under way. A strict one takes only what answers that command; any other takes each block that
    it can."""

    def __init__(self, dice, is_strict, fault):
        self.dice, self.is_strict, self.fault = dice, is_strict, fault
        self.poller, self.under_way, self.sent_at = fio2070.Poller(dice.randrange(256)), None, 0
        self.deadline, self.others = dice.randint(3, 40), dice.choice((0, 0, 0.05, 0.3))

    def next(self, now):
        """What is sent now; None for nothing."""
        if self.under_way is not None and now - self.sent_at < self.deadline:
            return None
        is_poll = self.under_way is not None and self.under_way[0] == 54
        if is_poll and self.fault == 'gives a block up' and self.dice.random() < 0.1:
            self.go_on()
        if self.under_way is None or is_poll or self.dice.random() < 0.5:
            self.under_way = self.dice.choice(OTHERS) if self.dice.random() < self.others else self.poller.poll()
        self.sent_at = now
        return self.under_way

    def go_on(self):
        """Goes on to the next number without a block."""
        self.poller = fio2070.Poller((self.poller.number + 1) % 256)

    def hear(self, octets):
        answers = self.under_way is not None and octets[0] == self.under_way[0] + 128
        is_block = octets[0] == 182
        if is_block and self.fault == 'goes on at an old block' and octets[1] == (self.poller.number - 1) % 256:
            self.go_on()
        if is_block and (answers or not self.is_strict):
            number = self.poller.number
            is_taken = self.poller.hear(octets).kind == 'taken'
            if is_taken and self.fault == 'asks for a block again' and self.dice.random() < 0.05:
                self.poller = fio2070.Poller(number)
            answers = answers and is_taken
        if answers:
            self.under_way = None


def spoiled(octets, fault, dice):
    """An answer of a module with a fault."""
    if octets[0] != 182 or dice.random() > 0.2:
        return octets
    changed = bytearray(octets)
    if fault == 'answers with another number':
        changed[1] = (changed[1] + dice.randint(1, 254)) % 256
    elif fault == 'says F without C':
        changed[-5] = 4
    elif fault == 'cuts an answer':
        changed.pop()
    elif fault == 'says G and E':
        changed[-5] |= 3
    elif fault == 'drops an entry' and 1 < changed[2] < 255:
        changed[2] -= 1
        del changed[3:6]
    elif fault == 'doubles an entry' and 0 < changed[2] < 255:
        changed[2] += 1
        changed[3:3] = changed[3:6]
    return bytes(changed)


def run_at_tap(seed, steps=1000):
    """The log of a run that was taken at a tap on the line: frames may be lost, repeated and delayed on both sides of it."""
    dice, log = random.Random(seed), []
    rough = dice.random()
    to_tap, to_module, answers, to_cpu = (Bus(dice, 0.2 * rough * dice.random(), 0.3 * dice.choice((0, 0, rough)), dice.choice((0, 3, 10, 40, 150)))
                                          for _ in range(4))
    module, cpu, levels = fio2070.Module(id=2), Cpu(dice, dice.random() < 0.5, None), ALL
    module.receive(encode.configure_inputs([ConfigurationItem(one, False, 1, 1) for one in range(64)]))
    traffic = dice.choice((0, 0.02, 0.5, 1))
    for now in range(steps):
        if dice.random() < traffic:
            levels ^= dice.getrandbits(64)
        module.scan(levels)
        for from_here, onward, direction in ((to_tap, to_module, '>'), (answers, to_cpu, '<')):
            for octets in from_here.come(now):
                log.append((direction, octets))
                onward.send(now, octets)
        for octets in to_module.come(now):
            answer = module.receive(octets)
            if answer:
                answers.send(now, answer)
        for octets in to_cpu.come(now):
            cpu.hear(octets)
        octets = cpu.next(now)
        if octets is not None:
            to_tap.send(now, octets)
    return log


def late_run(seed, steps=1000, fault=None):
    """The log of a run: pairs of direction and octets."""
    dice, log = random.Random(seed), []
    rough = dice.random()
    to_module, to_cpu = (Bus(dice, 0.2 * rough * dice.random(), 0.3 * dice.choice((0, 0, rough)), dice.choice((0, 3, 10, 40, 150)))
                         for _ in range(2))
    module, cpu, levels = fio2070.Module(id=2), Cpu(dice, dice.random() < 0.5, fault), ALL
    module.receive(encode.configure_inputs([ConfigurationItem(one, False, 1, 1) for one in range(64)]))
    traffic = dice.choice((0, 0.02, 0.5, 1))
    for now in range(steps):
        if dice.random() < traffic:
            levels ^= dice.getrandbits(64)
        module.scan(levels)
        for octets in to_module.come(now):
            answer = module.receive(octets)
            if answer:
                to_cpu.send(now, spoiled(answer, fault, dice))
        for octets in to_cpu.come(now):
            log.append(('<', octets))
            cpu.hear(octets)
        octets = cpu.next(now)
        if octets is not None:
            log.append(('>', octets))
            to_module.send(now, octets)
    return log
