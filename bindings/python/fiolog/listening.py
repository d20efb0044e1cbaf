"""What `fiolog live` hears: a process, a pipe, datagrams or a serial port, as events. Each has `file`, which can be waited for, `read` for
the octets that came, `feed` and `end` for the events that are decided, `reader`, `dropped` and `close`."""

import io
import os
import selectors
import shlex
import socket
import struct
import subprocess
import time

from . import terminal
from .event import BAD, DAMAGED, DATE, FRAME, Line, frame_of
from .options import OCTETS
from .reader import Reader

CHUNK = 1 << 16
LONGEST_DATAGRAM = 1 << 16
# The system's buffer for datagrams: some seconds of the densest traffic.
DATAGRAM_BUFFER = 1 << 25
# Linux: the count of dropped datagrams comes with each one (socket(7)).
SO_RXQ_OVFL = 40
# Linux: a buffer beyond what the system's administrator allows to all.
SO_RCVBUFFORCE = 33
# Seconds that a process has to end.
PATIENCE = 0.2
# The lines without a frame after which a process does not count as writing a transcript.
MOST_UNDECIDED = 1 << 10


class Lines:
    """What a file says as it comes: lines of a log, or what a line carried, by one of these readers: the first that finds a frame in a
    line, or the last. In a transcript no line waits for those below."""

    dropped = 0

    def __init__(self, file, *readers):
        self.file, self.readers, self.events = file, list(readers), [[] for _ in readers]

    @property
    def reader(self):
        """The reader that is followed."""
        return self.readers[-1]

    def read(self):
        """The octets that came."""
        return os.read(self.file.fileno(), CHUNK)

    def feed(self, chunk):
        """The events of the lines that are decided now."""
        return self._decided(lambda reader: reader.feed(chunk))

    def end(self):
        """The events of what is left."""
        return [*self._decided(Reader.end), *self.events[-1]]

    def _decided(self, read):
        now = time.time()
        for reader, events in zip(self.readers, self.events):
            events += (event if event.time is not None else event._replace(time=now, time_kind=DATE) for batch in read(reader) for event in batch.events())
        found = next((index for index, events in enumerate(self.events) if any(event.kind in (FRAME, BAD) for event in events)), None)
        if found is None and len(self.readers) > 1 and len(self.events[-1]) < MOST_UNDECIDED:
            return []
        index = -1 if found is None else found
        events, self.readers, self.events = self.events[index], [self.readers[index]], [[]]
        return events

    def close(self):
        """Ends it; returns whether that is a fault."""
        self.file.close()


class Process(Lines):
    """What a process says."""

    def __init__(self, command, *readers):
        self.process = subprocess.Popen(shlex.split(command), stdout=subprocess.PIPE)
        super().__init__(self.process.stdout, *readers)

    def close(self):
        """Ends a process that goes on. If it failed, its status is said."""
        for end in (self.process.terminate, self.process.kill, lambda: None):
            try:
                status = self.process.wait(PATIENCE)
            except subprocess.TimeoutExpired:
                end()
                continue
            if status > 0:
                terminal.say('the process ended with status %d' % status)
            return status > 0
        self.process.wait()
        return False


class Datagrams:
    """A frame a datagram. One without octets is none. What the system dropped is a damaged one, since the CPU may have heard it."""

    def __init__(self, host, port):
        self.file = socket.socket(socket.AF_INET, socket.SOCK_DGRAM)
        self.reader, self.number, self.dropped, self.unsaid = Reader(), 0, 0, 0
        for name, value in ((SO_RCVBUFFORCE, DATAGRAM_BUFFER), (socket.SO_RCVBUF, DATAGRAM_BUFFER), (SO_RXQ_OVFL, 1)):
            try:
                self.file.setsockopt(socket.SOL_SOCKET, name, value)
            except OSError:
                pass        # not Linux, or no leave for the first: what can be set is set
        self.file.bind((host, port))

    def read(self):
        """Returns the octets of a datagram; the count of those that the system dropped comes with it."""
        octets, notes, _, _ = self.file.recvmsg(LONGEST_DATAGRAM, socket.CMSG_SPACE(4))
        for level, kind, data in notes:
            if (level, kind) == (socket.SOL_SOCKET, SO_RXQ_OVFL):
                count, = struct.unpack('=I', data[:4])
                self.unsaid += (count - self.dropped) % (1 << 32)
                self.dropped = count
        return octets

    def feed(self, octets):
        """The event of a datagram, with one before it if others were dropped."""
        self.number += 1
        if self.unsaid:
            yield Line(self.number, DAMAGED, note='dropped by the system: %d datagrams' % self.unsaid)
            self.unsaid = 0
        if octets:
            yield frame_of(self.number, octets, time=time.time(), time_kind=DATE)

    def end(self):
        """Nothing is held."""
        return ()

    def close(self):
        """Ends it."""
        self.file.close()


def opened(option):
    """What is heard."""
    if option.exec is not None:
        return Process(option.exec, *[Reader('transcript')] * (not option.like), Reader(address=option.address, like=option.like))
    if option.udp is not None:
        return Datagrams(option.host, option.udp)
    if option.fifo is not None:
        # Without a writer an open would wait, and not look at the time.
        return Lines(io.FileIO(os.open(option.fifo, os.O_RDONLY | os.O_NONBLOCK)), Reader(address=option.address, like=option.like))
    return Lines(serial_port(option), Reader(line=OCTETS, address=option.address))


def serial_port(option):
    """The serial port: by pyserial with its rate, without it as the device is set."""
    try:
        import serial
        return serial.Serial(option.serial, option.rate, timeout=0)
    except ImportError:
        import termios
        import tty
    terminal.say('pyserial is not installed (Debian package python3-serial): the rate stays as the device is set')
    port = io.FileIO(os.open(option.serial, os.O_RDONLY | os.O_NOCTTY))
    try:
        tty.setraw(port.fileno())
    except termios.error as fault:
        raise OSError('%s: %s' % (option.serial, fault.args[1])) from None
    return port


class LineEnded(Exception):
    """The line ends with a fault, for example because its port is unplugged."""


def chunks(source, is_ended):
    """What is read, piece by piece, and None if nothing came for a while; until the line ends, or `is_ended`."""
    with selectors.DefaultSelector() as ready:
        try:
            ready.register(source.file, selectors.EVENT_READ)
            is_file = False
        except PermissionError:
            is_file = True      # a plain file is always ready
        while not is_ended():
            if not is_file and not ready.select(timeout=0.25):
                yield None
                continue
            try:
                chunk = source.read()
            except BlockingIOError:
                continue
            except OSError as fault:
                raise LineEnded(terminal.fault_words(fault)) from None
            if not chunk and not isinstance(source, Datagrams):
                return
            yield chunk
