"""Blocks drawn as a VCD file (IEEE 1364).

Signals: `input_N` for each input that occurs, unknown (x) before its first entry and between a gap mark and its next
one; `block`, the number of the block that carries the entries; `gap`, 1 ms at the first entry below a gap mark; `back`,
1 ms where the counter went back, by a load or a restart: times then go on from the last one; `breach`, where there is one,
1 ms at an entry that breaks a rule on content. Times are the wide ones, continued beyond 2^32. A block that is repeated is
drawn once."""

from typing import NamedTuple

TURN = 1 << 32


class Block(NamedTuple):
    number: int
    stamp: int
    is_lost: bool       # F: entries before this block are missing
    entries: list       # input, state and wide time of each
    broken: int = -1    # the index of the first entry that breaks a rule on content


class Clock:
    """The times of blocks, continued beyond 2^32 and where the counter went back."""

    def __init__(self):
        self.stamp = self.time = None

    def go_on(self, block, now=None):
        """Goes on to a block; `now` is the latest time so far, by default that of the block above. Returns whether the counter went back,
        and the time of each entry, or that of the block if it has none. The stamp says of which turn of the counter an entry is, since
        no entry is a turn older."""
        ages = [(block.stamp - wide) % TURN for _, _, wide in block.entries] or [0]
        step = (block.stamp - (self.stamp or 0)) % TURN
        is_back = self.stamp is not None and step >= TURN // 2
        if self.stamp is None:
            self.time = block.stamp if ages[0] <= block.stamp else block.stamp + TURN
        else:
            self.time = (self.time if now is None else now) + 1 + max(ages) if is_back else self.time + step
        self.stamp = block.stamp
        return is_back, [self.time - age for age in ages]


class Wave:
    """Value changes in the order of time, and what the header has to know of them."""

    def __init__(self, body):
        self.body, self.pulses, self.inputs, self.clock = body, [], set(), Clock()
        self.first = self.now = None
        self.is_broken = False

    def go_to(self, time):
        """Value changes that follow are at this time, or now if it has passed. Pulses end after 1 ms."""
        if time > self.now and self.pulses:
            self.now += 1
            self.body.write('#%d\n' % self.now + ''.join('0%s\n' % name for name in self.pulses))
            self.pulses = []
        if time > self.now:
            self.now = time
            self.body.write('#%d\n' % time)

    def pulse(self, name):
        self.body.write('1%s\n' % name)
        self.pulses.append(name)

    def draw(self, block):
        """Draws the block and its entries, each at its time."""
        is_back, times = self.clock.go_on(block, self.now)
        if self.first is None:
            self.first, self.now = times[0], times[0] - 1
        self.go_to(times[0])
        if is_back:
            self.pulse('r')
        self.body.write(''.join('%dn%d\n' % (block.number >> bit & 1, bit) for bit in range(8)))
        if block.is_lost:
            self.pulse('g')
            self.body.write(''.join('xi%d\n' % number for number in sorted(self.inputs)))
        for place, ((number, state, _), time) in enumerate(zip(block.entries, times)):
            self.go_to(time)
            if place == block.broken:
                self.is_broken = True
                self.pulse('b')
            self.body.write('%di%d\n' % (state, number))
            self.inputs.add(number)

    def header(self):
        inputs = sorted(self.inputs)
        yield '$version fio2070 waveform $end\n$timescale 1 ms $end\n$scope module fio2070 $end\n'
        yield from ('$var wire 1 n%d block [%d] $end\n' % (bit, bit) for bit in reversed(range(8)))
        yield '$var wire 1 g gap $end\n$var wire 1 r back $end\n' + '$var wire 1 b breach $end\n' * self.is_broken
        yield from ('$var wire 1 i%d input_%d $end\n' % (number, number) for number in inputs)
        yield '$upscope $end\n$enddefinitions $end\n#%d\n$dumpvars\n0g\n0r\n' % max((self.first or 0) - 1, 0)
        yield '0b\n' * self.is_broken
        yield from ('x%s\n' % name for name in ['n%d' % bit for bit in range(8)] + ['i%d' % n for n in inputs])
        yield '$end\n'


def each_once(blocks):
    """Yields each block, except one that repeats the block before it."""
    last = None
    for block in blocks:
        if (block.number, block.stamp, block.entries) != last:
            yield block
        last = block.number, block.stamp, block.entries


def draw(blocks, out):
    """Draws blocks, as they come, into a file that is written at their end; a block that is repeated is drawn once."""
    import shutil
    import tempfile
    with tempfile.TemporaryFile('w+') as body:
        wave = Wave(body)
        for block in each_once(blocks):
            wave.draw(block)
        if wave.now is not None:
            wave.go_to(wave.now + 1)
        body.seek(0)
        out.writelines(wave.header())
        shutil.copyfileobj(body, out)
