#!/usr/bin/env python3
"""A bad line between a controller and a module: it loses, damages, repeats and delays frames, each direction by itself.

    relay.py [--lose P] [--damage P] [--repeat P] [--delay MS] [--seed N] PORT HOST:PORT

It keeps what docs/PROTOCOL.md assumes of the bus: no frame overtakes another of its direction, and a repeat comes directly after
its frame. Damage is of octets, wherever they are: bits turn, an octet is lost, a flag or an escape is broken or made, a frame is
joined with the next one; and noise comes before the first frame. With octets lost or made, one damaged frame in 65,536 has a
right check, so the dice have a seed. It writes `open` once it listens. From SIGUSR2 on it loses all, up to the next SIGUSR2; from
SIGUSR1 on the line is good. At its end, by SIGINT or SIGTERM, it writes what it did."""

import argparse
import asyncio
import collections
import random
import signal

FLAG, ESCAPE = 0x7e, 0x7d
FATES = 'lose', 'damage', 'repeat'
MOST_NOISE = 100


def turn(octets, dice):
    """Turns one to three bits."""
    for bit in dice.sample(range(8 * len(octets)), dice.randint(1, 3)):
        octets[bit // 8] ^= 1 << bit % 8


def drop(octets, dice):
    """Loses an octet: not the flag at the end, since the next one would end the frame instead, late."""
    del octets[dice.randrange(len(octets) - 1)]


def make(octets, dice):
    """Makes an octet a flag or an escape."""
    octets[dice.randrange(len(octets))] = dice.choice((FLAG, ESCAPE))


def spoil(octets, dice):
    """Makes a flag or an escape another octet."""
    octets[dice.choice([place for place, octet in enumerate(octets) if octet in (FLAG, ESCAPE)])] = dice.randrange(ESCAPE)


def join(octets, _dice):
    """Loses the flag at the end; the next frame comes without its first one."""
    del octets[-1]


DAMAGES = turn, drop, make, spoil, join


class Damager:
    """Damages some of the frames of one direction. A frame comes as its octets between two flags."""

    def __init__(self, dice):
        self.dice, self.is_joined = dice, False

    def sent(self, frame, is_damaged):
        """What is sent of a frame, and the name of its damage."""
        octets = bytearray([FLAG] * (not self.is_joined)) + frame + bytes([FLAG])
        damage = self.dice.choice(DAMAGES) if is_damaged else None
        self.is_joined = damage is join
        if damage:
            damage(octets, self.dice)
        return bytes(octets), damage and damage.__name__


async def take(reader, queue, option, dice, counts):
    """Reads frames, and queues what becomes of each with the time when it is due."""
    due, damager = 0.0, Damager(dice)
    if option.damage:
        queue.put_nowait((due, dice.randbytes(dice.randrange(MOST_NOISE))))
    while True:
        frame = (await reader.readuntil(bytes([FLAG])))[:-1]
        if not frame:
            continue
        fate = {kind: dice.random() < getattr(option, kind) for kind in FATES}
        fate['lose'] |= option.is_cut
        counts.update(['frames', *(kind for kind in FATES if fate[kind])])
        if fate['lose']:
            continue
        octets, damage = damager.sent(frame, fate['damage'])
        counts.update([damage] if damage else [])
        for _ in range(1 + fate['repeat']):
            due = max(due, asyncio.get_running_loop().time() + dice.uniform(0, option.delay / 1000))
            queue.put_nowait((due, octets))


async def give(queue, writer):
    """Sends each frame when it is due."""
    while True:
        due, octets = await queue.get()
        await asyncio.sleep(due - asyncio.get_running_loop().time())
        writer.write(octets)


async def carry(option, dice, counts, controller, module):
    """Carries both directions until one end closes."""
    tasks = []
    for name, reader, writer in ('to module', controller[0], module[1]), ('to controller', module[0], controller[1]):
        queue = asyncio.Queue()
        tasks += [asyncio.create_task(take(reader, queue, option, dice[name], counts[name])),
                  asyncio.create_task(give(queue, writer))]
    await asyncio.wait(tasks, return_when=asyncio.FIRST_COMPLETED)
    for task in tasks:
        task.cancel()
    for result in await asyncio.gather(*tasks, return_exceptions=True):
        if not isinstance(result, (asyncio.CancelledError, asyncio.IncompleteReadError, ConnectionError)):
            raise result
    controller[1].close()
    module[1].close()


def mend(option):
    """Makes the line good from here on."""
    for name in (*FATES, 'delay'):
        setattr(option, name, 0.0)
    option.is_cut = False


def cut(option):
    """Loses each frame from here on, or no longer each."""
    option.is_cut = not option.is_cut


async def relay(option):
    """Carries for one controller after another, on one connection to the module each."""
    counts, ended = collections.defaultdict(collections.Counter), asyncio.Event()
    dice = {name: random.Random('%d %s' % (option.seed, name)) for name in ('to module', 'to controller')}
    host, port = option.module.rsplit(':', 1)

    async def accept(*controller):
        await carry(option, dice, counts, controller, await asyncio.open_connection(host, int(port)))

    for number in signal.SIGINT, signal.SIGTERM:
        asyncio.get_running_loop().add_signal_handler(number, ended.set)
    for number, act in (signal.SIGUSR1, mend), (signal.SIGUSR2, cut):
        asyncio.get_running_loop().add_signal_handler(number, act, option)
    async with await asyncio.start_server(accept, '127.0.0.1', option.port):
        print('open', flush=True)
        await ended.wait()
    for name, numbers in counts.items():
        print('%s: %s' % (name, ', '.join('%s %d' % pair for pair in numbers.items())), flush=True)


def main():
    parser = argparse.ArgumentParser(description=__doc__.split('\n', maxsplit=1)[0])
    for name in (*FATES, 'delay'):
        parser.add_argument('--' + name, type=float, default=0.0)
    parser.add_argument('--seed', type=int, default=1)
    parser.set_defaults(is_cut=False)
    parser.add_argument('port', type=int)
    parser.add_argument('module')
    asyncio.run(relay(parser.parse_args()))


if __name__ == '__main__':
    main()
