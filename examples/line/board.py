"""The board under qemu-system-arm, and the lines of fio2070-test on its second UART."""

import contextlib
import random
import socket
import subprocess
import time

QEMU = 'qemu-system-arm'
# How long a line may be answered, also on a busy machine.
ANSWER_S = 100
# What shows other processes on this machine which ports are taken.
PORTS = []


def free_port():
    """A port of the loopback that no one has now, nor gets before it is used: it is below those that the system gives, and no other
    process that asks here takes it while this one runs."""
    while True:
        port = random.randrange(10_000, 32_768)
        taken = socket.socket(socket.AF_UNIX)
        with socket.socket() as one, contextlib.suppress(OSError):
            one.bind(('127.0.0.1', port))
            taken.bind('\0fio2070 port %d' % port)
            PORTS.append(taken)
            return port
        taken.close()


@contextlib.contextmanager
def running(words, number, seconds=20, **settings):
    """A process that is ended by this signal."""
    process = subprocess.Popen(words, stdin=subprocess.DEVNULL, **settings)
    try:
        yield process
    finally:
        if process.poll() is None:
            process.send_signal(number)
        try:
            process.wait(seconds)
        except subprocess.TimeoutExpired:
            process.kill()
            process.wait()


def board_words(image, link, lines):
    """The command of the board, with its two UARTs at these ports. QEMU writes octet by octet: without `nodelay` each would wait
    until the one before it is acknowledged."""
    uarts = [word for port in (link, lines) for word in
             ('-serial', 'tcp:127.0.0.1:%d,server=on,wait=off,nodelay=on' % port)]
    return [QEMU, '-M', 'mps2-an386', '-display', 'none', '-monitor', 'none', *uarts, '-kernel', image]


class Lines:
    """Asks the firmware by lines."""

    def __init__(self, port):
        end = time.monotonic() + ANSWER_S
        while time.monotonic() < end:
            try:
                self.socket = socket.create_connection(('127.0.0.1', port), ANSWER_S)
                break
            except ConnectionRefusedError:
                time.sleep(0.05)
        else:
            raise ConnectionError('%s does not listen' % QEMU)
        self.file = self.socket.makefile('rw', newline='\n')

    def ask(self, line):
        """The answer to a line."""
        self.file.write(line + '\n')
        self.file.flush()
        return self.file.readline().rstrip('\n')

    def done(self, line):
        """Asks by a line whose answer is `done`."""
        answer = self.ask(line)
        if answer != 'done':
            raise ValueError('%s: %s' % (line, answer))

    def inputs(self, levels):
        """Sets the 64 levels; bit i is input i."""
        self.done('inputs ' + levels.to_bytes(8, 'little').hex())

    def counts(self):
        """What the firmware counts, by name."""
        words = self.ask('counts').split()
        return dict(zip(words[::2], map(int, words[1::2])))

    def close(self):
        self.file.close()
        self.socket.close()
