"""Both ends of examples/ on a hostile line, at the level of octets: bits are flipped, octets are lost, frames come twice or late,
noise comes between them, the connection is cut, the controller is killed and begun again, the module restarts. Afterwards the
controller's table has each move of the inputs once and in order, but where a mark is."""

import collections
import contextlib
import csv
import os
import random
import select
import signal
import socket
import subprocess
import threading
import time

import board
import moves

from support.waits import LONGEST, until

# Of each octet, of each piece.
FLIPPED, DROPPED, DOUBLED, NOISE = 0.002, 0.002, 0.05, 0.01
LATEST_S = 0.03
# Each frame is between two of these.
FLAG = b'\x7e'
# The pauses between cuts, kills and restarts.
PAUSE_S = (1.0, 4.0)


class Line(threading.Thread):
    """A line between a port and that of the module; it is hostile while `is_calm` is not set."""

    def __init__(self, port, module, seed, counts):
        super().__init__(daemon=True)
        self.listener, self.module, self.counts = socket.create_server(('127.0.0.1', port)), module, counts
        self.dice, self.is_calm, self.ended = random.Random(seed), threading.Event(), threading.Event()
        self.listener.settimeout(0.1)

    def run(self):
        while not self.ended.is_set():
            with contextlib.suppress(OSError):
                with self.listener.accept()[0] as near, socket.create_connection(('127.0.0.1', self.module), 5) as far:
                    self.carry(near, far)
        self.listener.close()

    def carry(self, near, far):
        """Carries octets both ways until an end closes, or the line is cut."""
        for one in near, far:
            one.setsockopt(socket.IPPROTO_TCP, socket.TCP_NODELAY, 1)
        cut_at = time.monotonic() + self.dice.uniform(*PAUSE_S)
        while not self.ended.is_set():
            if not self.is_calm.is_set() and time.monotonic() > cut_at:
                self.counts['cuts'] += 1
                return
            for one in select.select([near, far], [], [], 0.02)[0]:
                piece = one.recv(4096)
                if not piece:
                    return
                (far if one is near else near).sendall(piece if self.is_calm.is_set() else self.spoiled(piece))

    def spoiled(self, piece):
        """What becomes of a piece on its way."""
        octets = bytearray()
        for octet in piece:
            fate = self.dice.random()
            self.counts['flipped'] += fate < FLIPPED
            if FLIPPED <= fate < FLIPPED + DROPPED:
                self.counts['dropped'] += 1
            else:
                octets.append(octet ^ (fate < FLIPPED) << self.dice.randrange(8))
        # A piece of two polls would come as four, the first after the second: a bus that is not in order loses blocks.
        if self.dice.random() < DOUBLED and piece[:1] == piece[-1:] == FLAG and piece.count(FLAG) == 2:
            self.counts['doubled'] += 1
            octets *= 2
        if self.dice.random() < NOISE:
            self.counts['noise'] += 1
            octets += self.dice.randbytes(self.dice.choice((1, 5, 50, 500, 2000)))
        time.sleep(self.dice.uniform(0, LATEST_S))
        return bytes(octets)


class Controller(threading.Thread):
    """Keeps a controller running: kills it now and then, and begins it again whenever it has ended."""

    def __init__(self, words, seed, counts, is_calm):
        super().__init__(daemon=True)
        self.words, self.dice, self.counts, self.is_calm = words, random.Random(seed), counts, is_calm
        self.ended = threading.Event()

    def begun(self):
        return subprocess.Popen(self.words, stdin=subprocess.DEVNULL, stderr=subprocess.DEVNULL)

    def run(self):
        process, kill_at = self.begun(), time.monotonic() + self.dice.uniform(*PAUSE_S)
        while not self.ended.is_set():
            time.sleep(0.01)
            if process.poll() is not None:
                process = self.begun()
            elif not self.is_calm.is_set() and time.monotonic() > kill_at:
                self.counts['kills'] += 1
                process.kill()
                kill_at = time.monotonic() + self.dice.uniform(*PAUSE_S)
        process.send_signal(signal.SIGINT)
        try:
            process.wait(LONGEST)
        except subprocess.TimeoutExpired:
            process.kill()


def moved(lines, seed, seconds, counts):
    """Moves inputs for this time, with restarts of the module. Returns the moves."""
    mover, dice, end = moves.Mover(lines, seed), random.Random(seed), time.monotonic() + seconds
    while time.monotonic() < end:
        mover.move(min(dice.uniform(*PAUSE_S), end - time.monotonic()))
        if end - time.monotonic() > 1:
            counts['restarts'] += 1
            lines.done('reset')
    counts['moves'] = len(mover.made)
    return mover.made


def settle(lines, path):
    """Waits until nothing waits, and three further blocks are taken, so that the number in this file changes."""
    scans = lines.counts()['scans'] + moves.LEAST_SCANS
    until(lambda: lines.counts()['scans'] > scans and not lines.counts()['waiting'])
    for _ in range(3):
        before = number_in(path)
        until(lambda it=before: number_in(path) != it)


def number_in(path):
    """The number that a controller keeps in a file, of the block that it takes next."""
    with contextlib.suppress(FileNotFoundError), open(path, encoding='ascii') as file:
        return file.read(3)
    return ''


def fault_of(folder, made):
    """What is wrong in the controller's table."""
    with open(os.path.join(folder, 'record.csv'), encoding='ascii', newline='') as file:
        rows = list(csv.DictReader(file))
    return next((row for row in rows if None in row or None in row.values()), None) or moves.fault_of(made, rows)


def run(programs, folder, seed, seconds):
    """A run with the programs of a folder. Returns what was done to the ends, and what is wrong."""
    counts, link, asked, port = collections.Counter(), board.free_port(), board.free_port(), board.free_port()
    line = Line(port, link, seed, counts)
    words = [os.path.join(programs, 'controller'), '--deadline', '100', '--keep', os.path.join(folder, 'number'), '--transcript',
             os.path.join(folder, 'transcript'), '127.0.0.1:%d' % port, os.path.join(folder, 'record.csv')]
    with board.running(board.board_words(os.path.join(programs, 'firmware.elf'), link, asked), signal.SIGTERM,
                       stdout=subprocess.DEVNULL, stderr=subprocess.DEVNULL):
        lines, controller = board.Lines(asked), Controller(words, seed + 1, counts, line.is_calm)
        line.is_calm.set()
        for thread in line, controller:
            thread.start()
        # Inputs are reported once a block is taken.
        until(lambda: number_in(os.path.join(folder, 'number')))
        line.is_calm.clear()
        made = moved(lines, seed, seconds, counts)
        line.is_calm.set()
        settle(lines, os.path.join(folder, 'number'))
        for thread in controller, line:
            thread.ended.set()
            thread.join(LONGEST)
        lines.close()
    return counts, fault_of(folder, made)
