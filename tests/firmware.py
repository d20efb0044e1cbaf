#!/usr/bin/env -S python3 -B
"""The two whole ends of examples/: builds the firmware and the controller, and runs them against each other with
examples/line/run.py, on the loopback alone; a controller whose line takes no more, and one for 32 bits, after 24 days and with
a table of 3 GB. With `--all` on a line that loses, damages, repeats and delays frames, on one that is so bad that the module's
buffer overflows, with a restart of either end; `fio2070-test` on the running firmware; the recipe for a module that is only
polled; and planted faults, each of which is found. Last line: `N passed, M failed`."""

import contextlib
import csv
import errno
import fcntl
import functools
import glob
import itertools
import math
import os
import pty
import random
import re
import select
import shutil
import signal
import socket
import subprocess
import sys
import tempfile
import termios
import threading
import time
import tty

from support import cortex, fiolog, line_model
from support.check import Check
from support.pages import text_of
from support.tables import TOP
from support.waits import LONGEST, sleeps, until

EXAMPLES, LIBRARY = os.path.join(TOP, 'examples'), os.path.join(TOP, 'dist')
sys.path[:0] = [os.path.join(EXAMPLES, 'line')]

import board
import moves

STRICT = ['-std=c99', '-Wall', '-Wextra', '-Wpedantic', '-Wconversion', '-Werror']
SANITIZED = '-g -fsanitize=address,undefined -fno-sanitize-recover=all'
TESTER = os.path.join(TOP, 'fio2070-test')
# On a busy machine the longest line of the tester, octet by octet through QEMU, takes seconds.
PATIENT = '--deadline', str(1000 * board.ANSWER_S)
CORTEX = ['-mcpu=cortex-m4', '-mthumb', '-Os']
# What clang needs to find newlib.
NEWLIB = ['--target=arm-none-eabi', '-isystem', '/usr/lib/arm-none-eabi/include']
# A processor of 32 bits under qemu-user.
LATE = ['arm-linux-gnueabihf-gcc', '-std=c99', '-O1', '-static', '-DFIO2070_NO_LOG', '-fsanitize=undefined',
        '-fsanitize-undefined-trap-on-error', '-Wl,--wrap=clock_gettime', os.path.join(TOP, 'tests/support/c/late_clock.c')]
# As uart.h has it; lines whose answers fill a socket that nobody reads.
RING, HELD = 1024, 40
SMALL_RING = 8
# Cuts of the power, each with another seed.
CUTS = 200
# Options of run.py for a line on which one command in three is answered.
BAD = ['--lose', '0.4', '--deadline', '40']
# The rows of runs: name, seconds of moves, options of run.py.
RUNS = [('frames lost, damaged and delayed', 8, []),
        ('a restart of the module', 6, ['--restart', 'module']),
        ('a restart of the controller', 6, ['--restart', 'controller'])]
# Faults: name, file, text, replacement.
FREED_FIRST = ('uart.c', '    uint16_t item = uart->ring[uart->tail % UART_RING];\n    uart->tail++; /* last: from here on the interrupt may write there */\n'
               '    return item;', '    return uart->ring[uart->tail++ % UART_RING];')
NOT_MARKED = ('uart.c', '        if (errors != 0) uart->has_loss = 1;\n', '')
NOT_CLEARED = ('uart.c', '            *part(uart, STATE) = errors;\n', '')
NOT_REPORTED = ('firmware.c', '    if (item & UART_LOSS) fio2070_wire_lose(&line);\n', '')
NO_HOLD = ('board.h', '__asm volatile("msr basepri, %0\\n isb" : : "r"(SCANS_PRIORITY) : "memory");', '')
LOST_TICKS = ('firmware.c', 'for (; due > 0; due--, scanned_to += SCAN_US) {',
              'for (scanned_to += due * SCAN_US, due = due > 0; due > 0; due--) {')
# The first controller ends when the module was polled for 0, and its answer had entries.
ENDS_AT_ONE = ('tables.c', '    keep(tables, next_number);', '    static int blocks;\n    int has_rows = flushed(tables->csv) > tables->csv_kept;\n'
               '    keep(tables, next_number);\n    if (++blocks > 1 && next_number == 1 && has_rows && !tables->was_kept) _exit(9);')
NUMBER_ANEW = ('controller.c', 'settings_with((uint32_t)deadline), tables.number)', 'settings_with((uint32_t)deadline), 0)')
NEVER_CUT = ('tables.c', '    if (is_again) {\n', '    if (0) {\n')
# No fault of the link: the first controller ends after a block is written, and before its number is kept.
ENDS_BETWEEN = ('tables.c', '    keep(tables, next_number);', '    if (next_number > 77 && !tables->was_kept && '
                'flushed(tables->csv) > tables->csv_kept) _exit(9);\n    keep(tables, next_number);')
NO_MARK = ('tables.c', '    add_gap(tables);\n    if (!tables->is_number_lost)', '    if (!tables->is_number_lost)')
TORN_ROW = ('tables.c', '    cut(file, whole);\n', '')
ANY_LINE = ('tables.c', "== KEPT_LINE && line[KEPT_LINE - 1] == '\\n' &&", '> 0 &&')
ANY_NUMBER = ('tables.c', '&tables->events_kept) == 3', '&tables->events_kept) >= 1')
NOT_SETTLED = ('tables.c', 'if (length != kept && !tables->is_fast', 'if (tables->is_fast && 0')
STATE_STUCK = ('firmware.c', '    LAMPS = ', '    if (answer[0] == 182 && answer[2] > 0) answer[3] |= 0x80;\n    LAMPS = ')
NOT_AGAIN = ('controller.c', 'is_ending ? controller_link_finish(&cpu, (uint32_t)milliseconds())', 'is_ending ? 0')
UNSEEN_RESTART = ('controller_link.c', 'if (link->step == CONTROLLER_LOOK && (answer->flags & FIO2070_BIT_WAS_RESET)) {', 'if (0) {')

# The chance that a row of chance fails, and that of an entry to be wrong where scans are not held off.
CHANCE, ONE_WRONG = 1e-9, 1 / 60_000
# On a busy machine less happens in a time: how many times as long a run is that comes after one in which too little did.
LONGER = 1, 4, 16, 64

check = Check()
room = tempfile.mkdtemp()


def run(*words, timeout=900, **settings):
    return subprocess.run(words, capture_output=True, text=True, errors='replace', timeout=timeout, check=False, **settings)


def fault_of(*words, **settings):
    """What a command writes if it fails, otherwise nothing."""
    done = run(*words, **settings)
    return (done.stdout + done.stderr)[-600:] or 'status %d' % done.returncode if done.returncode else None


def finds_nothing(find, *given):
    """A planted fault: why a function of these arguments should find one, if it does not."""
    return None if find(*given) else 'it finds nothing'


def change(path, old, new):
    """Changes a text that a file has once."""
    with open(path, encoding='utf-8') as file:
        text = file.read()
    if text.count(old) != 1:
        raise cortex.Failed('%s does not have %r once' % (path, old))
    with open(path, 'w', encoding='utf-8') as file:
        file.write(text.replace(old, new))


@functools.cache
def built(*changes):
    """The folder of the programs, with these changes to their sources; with `--all` the controller has sanitizers."""
    made, examples = tempfile.mkdtemp(dir=room), EXAMPLES
    if changes:
        examples = os.path.join(made, 'sources')
        shutil.copytree(EXAMPLES, examples, ignore=shutil.ignore_patterns('out'))
        for name in ('fio2070.o', 'fio2070-arm.o'):
            shutil.copy2(os.path.join(built(), name), made)
    for name, old, new in changes:
        change(next(os.path.join(at, name) for at, _, names in os.walk(examples) if name in names), old, new)
    if not check.given.all:
        # One library for this machine is enough for both.
        shutil.copy(library_object(), os.path.join(made, 'fio2070.o'))
    cortex.run('make', '-s', '-C', examples, 'all', 'OUT=' + made, 'LIBRARY=' + LIBRARY,
               'CFLAGS=-O1 ' + (SANITIZED if check.given.all else ''))
    return made


# ---- Building ----

def sources(folder):
    return sorted(glob.glob(os.path.join(EXAMPLES, folder, '*.c')))


def takes():
    """The flash and the RAM of the firmware are those of the page; another compiler may take a tenth more or less."""
    shown = re.search(r'([\d,]+) octets of flash and ([\d,]+) of RAM', text_of('docs/FIRMWARE.md'))
    code, data, empty = map(int, run('arm-none-eabi-size', os.path.join(built(), 'firmware.elf')).stdout.splitlines()[1].split()[:3])
    pairs = [(int(shown[1].replace(',', '')), code + data), (int(shown[2].replace(',', '')), data + empty)]
    return None if all(abs(one - other) <= other // 10 for one, other in pairs) else pairs


def warns(compiler, options, folder):
    """Compiles each file of a folder by itself. Returns what the compiler warns about."""
    made = os.path.join(room, 'warns.o')
    return next(filter(None, (fault_of(compiler, *STRICT, *options, '-I', LIBRARY, '-c', path, '-o', made)
                              for path in sources(folder))), None)


@functools.cache
def library_object():
    """The portable library for this machine, without sanitizers."""
    made = os.path.join(room, 'library.o')
    cortex.run('cc', '-std=c99', '-O1', '-DFIO2070_NO_LOG', '-c', os.path.join(LIBRARY, 'fio2070.c'), '-o', made)
    return made


def compile_here(program, *words):
    """Compiles a program of this machine."""
    cortex.run('cc', *STRICT, '-g', '-O1', '-fsanitize=address,undefined', *words, '-o', program)


# ---- A device ----

def marked_line():
    """A controller loses the octets that a serial device marks: FF 00 and an octet; FF FF is an FF."""
    program, dice = os.path.join(room, 'marked'), random.Random(1)
    compile_here(program, '-I', LIBRARY, '-I', os.path.join(EXAMPLES, 'controller'), '-DFIO2070_NO_LOG',
                 *(os.path.join(TOP, name) for name in ('examples/controller/line.c', 'tests/support/c/marked_line.c')), library_object())
    line = [octet for _ in range(3000) for octet in line_model.line_of(bytes(dice.choices((0, 0x36, 0x7d, 0x7e, 0xff), k=8)))]
    line = [line_model.LOST if dice.random() < 0.02 else octet for octet in line]
    marks = {line_model.LOST: b'\xff\x00\x55', 0xff: b'\xff\xff'}
    octets = b''.join(marks.get(octet) or bytes([octet]) for octet in line)
    said = line_model.said(line)
    due = ''.join(one.message.hex() + ' ' for one in said if one.kind == line_model.MESSAGE)
    got = subprocess.run([program], input=octets, capture_output=True, check=False).stdout.decode()
    return None if got == due + 'damaged %d\n' % sum(one.kind == line_model.DAMAGED for one in said) else (got, due)


# ---- Runs ----

def run_of(folder, seconds, words):
    """A run: its last line, and what it wrote."""
    done = run(sys.executable, os.path.join(EXAMPLES, 'line', 'run.py'), '--out', folder, '--seconds', str(seconds), *words)
    last = (done.stdout.strip().splitlines() or [''])[-1]
    return last, done.stdout[-600:] + done.stderr[-600:]


def is_wrong(seconds, words, *changes):
    last, text = run_of(built(*changes), seconds, words)
    return None if last.endswith(' right') else text


def runs_over():
    """A run on a line that is cut until the module's buffer runs over: the table has marks, where entries are missing."""
    last, text = run_of(built(), 2, [*BAD, '--overflow'])
    return None if last.endswith(' right') and ' missing at ' in last else text


def rough_is_wrong():
    """A run with late and repeated frames, and what `fiolog check --late-answers` says about its transcript."""
    failed = is_wrong(8, ['--rough'])
    if failed or not os.path.exists(fiolog.LIBRARY):
        return failed
    done = fiolog.fiolog('check', '--late-answers', os.path.join(built(), 'line.transcript'))
    return None if done.status == 0 and re.search(r'late answers \d\d+, breaches 0', done.out) else done


def is_missed(seconds, words, *changes):
    """A planted fault: a run says that it is wrong."""
    last, text = run_of(built(*changes), seconds, words)
    return None if 'WRONG: ' in last else text


@contextlib.contextmanager
def on_board(folder, image='firmware.elf'):
    """The running firmware of a folder: the ports of its link and of its lines."""
    ports = board.free_port(), board.free_port()
    with board.running(board.board_words(os.path.join(folder, image), *ports), signal.SIGTERM, stderr=subprocess.DEVNULL):
        yield ports


@contextlib.contextmanager
def toggled(lines):
    """Moves all inputs meanwhile, again and again."""
    ended = threading.Event()

    def toggle():
        levels = 0
        while not ended.is_set():
            lines.inputs(levels)
            levels ^= 2 ** 64 - 1

    mover = threading.Thread(target=toggle)
    mover.start()
    try:
        yield
    finally:
        ended.set()
        mover.join()


# ---- What the firmware receives ----

def connected(path):
    """A socket to a UART that QEMU gives as a file."""
    one, ends_at = socket.socket(socket.AF_UNIX), time.monotonic() + board.ANSWER_S
    one.settimeout(board.ANSWER_S)
    while one.connect_ex(path) and time.monotonic() < ends_at:
        time.sleep(0.05)
    return one


def room_of_socket():
    """How many octets such a socket takes, one by one, while nobody reads them."""
    one, other = socket.socketpair()
    with one, other, contextlib.suppress(BlockingIOError):
        one.setblocking(False)
        for count in itertools.count():
            one.send(b'x')
    return count


def unread(one, request):
    """What waits in such a socket to be read: of it (`FIONREAD`), or by QEMU (`TIOCOUTQ`), which takes an octet when the UART has
    room for it."""
    return int.from_bytes(fcntl.ioctl(one, request, bytes(4)), 'little')


@contextlib.contextmanager
def begun(*changes):
    """The running firmware: its link and its lines."""
    paths = [os.path.join(tempfile.mkdtemp(dir=room), name) for name in ('link', 'lines')]
    words = board.board_words(os.path.join(built(*changes), 'firmware.elf'), 0, 0)
    words[-5], words[-3] = ('unix:%s,server=on,wait=off' % path for path in paths)
    with board.running(words, signal.SIGTERM, stderr=subprocess.DEVNULL):
        link, lines = connected(paths[0]), UnreadLines(paths[1])
        yield link, lines
        lines.close()
        link.close()


class UnreadLines(board.Lines):
    """The lines over a socket that takes some hundred octets: while nobody reads them, the main loop waits."""

    def __init__(self, path):
        self.socket = connected(path)
        self.file = self.socket.makefile('rw', newline='\n')

    def hold(self):
        """Asks until the main loop waits: the socket takes no more of its answers, whose number has been the same for a while."""
        self.socket.sendall(HELD * b'counts\n')
        same, before, room = 0, 0, room_of_socket()
        while same < 4:
            time.sleep(0.5)
            left = unread(self.socket, termios.FIONREAD)
            same, before = same + 1 if room <= left == before else 0, left

    def release(self):
        """Reads the answers."""
        for _ in range(HELD):
            self.file.readline()


def answers(link, count):
    """The next answers on the link, this many."""
    line = b''
    while len(line_model.said(line)) < count:
        line += link.recv(4096)
    return [one.message for one in line_model.said(line)]


def asked(link, message):
    """The answer to a message on the link."""
    link.sendall(line_model.line_of(message))
    return answers(link, 1)[0]


def poll(number):
    return line_model.line_of(bytes([54, number]))


def events():
    """What a UART and the main loop do: octets come, counted up, some of them over others, and items are taken, at changing rates.
    At the end all are taken."""
    dice, number = random.Random(1), 0
    for _ in range(200):
        rate = dice.choice((0.2, 0.5, 0.8))
        for _ in range(100):
            if dice.random() < rate:
                yield 't', None
            else:
                yield dice.choice('r' * 30 + 'eo'), number % 256
                number += 1
    yield from [('t', None)] * SMALL_RING


def ring_loses(*changes):
    """An octet is dropped if the ring is full, and never else; the next one is marked, as are one that overran another and the one
    after it; all else comes once, in order, without a mark."""
    folder = tempfile.mkdtemp(dir=room)
    for name in ('examples/firmware/uart.c', 'examples/firmware/uart.h', 'tests/support/c/ring/board.h', 'tests/support/c/ring/ring.c'):
        shutil.copy2(os.path.join(TOP, name), folder)
    for name, old, new in (('uart.h', 'UART_RING = %d' % RING, 'UART_RING = %d' % SMALL_RING), *changes):
        change(os.path.join(folder, name), old, new)
    program = os.path.join(folder, 'ring')
    compile_here(program, *(os.path.join(folder, name) for name in ('uart.c', 'ring.c')))
    done = list(events())
    words = run(program, input=''.join('%s %s\n' % (kind, '' if octet is None else '%x' % octet) for kind, octet in done)).stdout.split()
    held, lost, has_loss, due = 0, 0, False, []
    for kind, octet in done:
        if kind == 't':
            held = max(held - 1, 0)
            continue
        is_over, is_dropped = kind != 'r', held == SMALL_RING
        if not is_dropped:
            due.append(octet | (has_loss or is_over) << 8)
            held += 1
        lost, has_loss = lost + is_over + is_dropped, is_over or is_dropped
    return None if words == [str(item) for item in (*due, lost)] and lost > 1000 else (due[:20], words[:20], lost)


def frees_early(*changes):
    """The main loop reads an item before it frees its place in the ring, where the interrupt may write then."""
    done = run('arm-none-eabi-objdump', '-d', '--disassemble=uart_take', os.path.join(built(*changes), 'firmware.elf'))
    steps = re.findall(r'\t(ldrh|ldrb|str)\S*\t', done.stdout)
    return None if steps[:1] == ['ldrh'] and 'str' in steps else done.stdout


def struck():
    """A frame without an answer, in three pieces: without the one in the middle, it is a poll that nobody sent, and its frame check
    is right."""
    dice, head, rest = random.Random(1), b'\x14\x83', b'\x36\x63'
    gone = next(gone for gone in (bytes([59, *dice.choices(range(0x7d), k=5)]) for _ in itertools.count())
                if line_model.frame_check(head + gone) == line_model.frame_check(head))
    whole, cut = line_model.with_check(head + gone + rest), line_model.with_check(head + rest)
    return b'\x7e' + head, gone, line_model.stuffed(cut[2:]) + b'\x7e', whole[-4:] == cut[-4:]


def ring_is_wrong(*changes):
    """The ring is full within a frame: the frames before it and after it are answered, and what is left of it is damage."""
    first, gone, last, is_right = struck()
    polls = b''.join(map(poll, range(3)))
    with begun(*changes) as (link, lines):
        lines.hold()
        link.sendall(b'\x7e' * (RING - len(polls + first)) + polls + first + gone)
        until(lambda: not unread(link, termios.TIOCOUTQ))
        time.sleep(0.5)
        lines.release()
        heard = answers(link, 3)
        link.sendall(last + poll(3))
        heard += answers(link, 1)
        counts = lines.counts()
    got = [(octets[0], octets[1]) for octets in heard], counts['octets-lost'], counts['receive-errors']
    return None if is_right and got == ([(182, number) for number in range(4)], len(gone), 1) else (is_right, got)


def relays_are_wrong():
    """Command 57 sets four relays, and its answer has them as they are; one with another body gets no answer and sets none. The
    board shows them, and the module's own answers are as ever."""
    with begun() as (link, lines):
        said = [asked(link, bytes([57, on])) for on in (15, 5)]
        for body in (b'', b'\x10', b'\1\0'):
            link.sendall(line_model.line_of(bytes([57]) + body))
        said.append(asked(link, bytes([54, 0]))[:3])
        shown = lines.counts()
    return None if said == [b'\xb9\x0f', b'\xb9\x05', b'\xb6\0\0'] and (shown['relays'], shown['receive-errors']) == (5, 0) else (said, shown)


def stations_are_mixed():
    """Frames of other stations are neither answered nor counted, damaged ones are counted; it goes on in and after a flood."""
    dice = random.Random(1)
    flood = bytes(dice.choice((0x7e, 0x7d)) if dice.random() < 0.05 else dice.randrange(256) for _ in range(20000))
    with begun() as (link, lines):
        others = [line_model.line_of(b'\x36\x01', *station) for station in ((0x99, 0x83), (0x14, 0x03), (0xff, 0xff), (0, 0))]
        link.sendall(b''.join(others) + poll(2))
        heard, before = answers(link, 1), lines.counts()
        link.sendall(poll(3)[:-2] + b'\x7e' + poll(4))
        heard, damaged = heard + answers(link, 1), lines.counts()
        link.sendall(flood + b'\x7e' + poll(5))
        link.settimeout(LONGEST)
        heard, flooded = heard + answers(link, 1), lines.counts()
    errors = [counts['receive-errors'] for counts in (before, damaged, flooded)]
    is_right = ([octets[1] for octets in heard], errors) == ([2, 4, 5], [0, 1, 255]) and flooded['scans'] > damaged['scans']
    return None if is_right else (heard, before, damaged, flooded)


# ---- A line that takes no more ----

def answer_flags(master, flags):
    """Answers the controller's first command, which asks for the flags, on a terminal. Its FF comes as two, as errors are marked."""
    os.read(master, 4096)
    os.write(master, line_model.line_of(bytes([177, flags, 0, 0, 0, 0, 0, 255])))


def fill(master, slave):
    """Reads nothing more after the first command until the terminal takes no more. The commands with the configuration fill it
    in seconds."""
    answer_flags(master, 0)
    if not until(lambda: not select.select([], [slave], [], 0)[1]):
        raise cortex.Failed('the terminal does not fill')


def is_held(*words, ending=None):
    """A controller on a terminal that nobody reads ends, by a signal or by its time. Returns what it does otherwise."""
    master, slave = pty.openpty()
    tty.setraw(slave)
    words = [os.path.join(built(), 'controller'), '--deadline', '1', *words, os.ttyname(slave), os.path.join(room, 'held.csv')]
    try:
        with subprocess.Popen(words, stderr=subprocess.PIPE, text=True) as program:
            try:
                fill(master, slave)
                if ending:
                    until(lambda: sleeps(program.pid))
                    program.send_signal(ending)
                said = program.communicate(timeout=LONGEST)[1]
            except subprocess.TimeoutExpired:
                return 'it goes on'
            finally:
                program.kill()
        unsent = re.search(r' unsent (\d+) ', said)
        return None if unsent and int(unsent[1]) > 0 and program.returncode == 1 else (said, program.returncode)
    finally:
        os.close(master)
        os.close(slave)


def held_rows():
    if not check.has_terminal('a controller ends on a line that takes no more'):
        return
    for word, ending in (('SIGTERM', signal.SIGTERM), ('SIGINT', signal.SIGINT)):
        check.fault('a controller ends on a line that takes no more: ' + word, lambda it=ending: is_held(ending=it))
    check.fault('a controller ends on a line that takes no more: its time', is_held, '--seconds', '15')


# ---- A power cut ----

def cut_once(program, seed):
    """What is wrong in a controller's table after its power has failed once; None if each move is in it or is missing at a mark."""
    # In memory if possible: each number waits for the disk.
    with tempfile.TemporaryDirectory(dir='/dev/shm' if os.path.isdir('/dev/shm') else room) as folder:
        done = run(program, folder, str(seed))
        if done.returncode or not done.stderr.endswith('marks without a reason 0\nunsynced 0\n'):
            return 'seed %d' % seed, done.returncode, done.stderr[-300:]
        with open(os.path.join(folder, 'record.csv'), encoding='ascii', newline='') as file:
            rows = list(csv.DictReader(file))
    made = [(0, *map(int, line.split())) for line in done.stdout.splitlines()]
    try:
        fault = moves.fault_of(made, rows)
    except (KeyError, TypeError, ValueError) as why:
        fault = 'no table: %s' % why
    return fault and ('seed %d' % seed, fault, done.stderr[-300:])


def power_loses(*changes):
    """The power of a controller fails: what is wrong in its table, at the first seed that finds it."""
    program = os.path.join(tempfile.mkdtemp(dir=room), 'power')
    folder = EXAMPLES
    if changes:
        folder = os.path.join(tempfile.mkdtemp(dir=room), 'sources')
        shutil.copytree(EXAMPLES, folder, ignore=shutil.ignore_patterns('out'))
        for name, old, new in changes:
            change(os.path.join(folder, 'controller', name), old, new)
    compile_here(program, '-I', LIBRARY, '-I', os.path.join(folder, 'controller'), '-DFIO2070_NO_LOG', '-Wl,--wrap=fdatasync',
                 '-Wl,--wrap=pwrite64', *(os.path.join(folder, 'controller', name) for name in ('tables.c', 'controller_link.c')),
                 os.path.join(TOP, 'tests/support/c/power.c'), library_object())
    return next(filter(None, (cut_once(program, seed) for seed in range(1, CUTS + 1))), None)


# The files of a controller: their options and endings.
FILES = {'--keep': '.number', '--events': '.events', '--transcript': '.transcript', '': '.csv'}


def words_of(files, *left_out):
    """The command line of a controller with these files and this line, without some options."""
    options = [word for option in FILES if option and option not in left_out for word in (option, files[option])]
    return [os.path.join(built(), 'controller'), *options, '--on', '0', files['line'], files['']]


def second_goes_on(says, shared, *left_out):
    """Of two controllers that share a file or the line the second ends, says why, and leaves the table. Returns what they do otherwise."""
    with contextlib.ExitStack() as stack:
        (master, line), other = pty.openpty(), pty.openpty()
        for file in (master, line, *other):
            stack.callback(os.close, file)
        tty.setraw(line)
        folder = stack.enter_context(tempfile.TemporaryDirectory())
        one, two = ({'line': os.ttyname(device), **{option: os.path.join(folder, who + end) for option, end in FILES.items()}}
                    for who, device in (('one', line), ('two', other[1])))
        two[shared], row = one[shared], 'time,input,state,wide\n'
        with open(one[''], 'w', encoding='ascii') as table:
            table.write(row)
        with subprocess.Popen(words_of(one), stderr=subprocess.DEVNULL) as first:
            os.read(master, 1)
            second = run(*words_of(two, *left_out), timeout=LONGEST)
            goes_on = first.poll() is None and os.path.getsize(one['']) >= len(row)
            first.kill()
        said = 'controller: %s: %s\n' % (one[shared], says)
    return None if (second.returncode, second.stderr, goes_on) == (1, said, True) else (second, goes_on)


def power_rows():
    check.fault('the power of a controller fails, %d times' % CUTS, power_loses)
    if not check.whole('found: faults of a controller whose power fails'):
        return
    for name, *faults in (('a table that is shorter, without a mark', NO_MARK), ('a torn row that is gone on with', TORN_ROW),
                          ('a torn number', ANY_LINE, ANY_NUMBER), ('a number that is kept before its table', NOT_SETTLED),
                          ('a block that is written twice after a power cut', NEVER_CUT)):
        check.fault('found: ' + name, finds_nothing, power_loses, *faults)


# ---- A processor of 32 bits whose milliseconds need more ----

@functools.cache
def late_object():
    """The portable library for this processor."""
    made = os.path.join(room, 'late.o')
    cortex.run(LATE[0], '-std=c99', '-O1', '-DFIO2070_NO_LOG', '-c', os.path.join(LIBRARY, 'fio2070.c'), '-o', made)
    return made


def late(name, *paths):
    """Builds a program whose clock soon needs more than 31 bits; undefined behaviour ends it."""
    made = os.path.join(room, name)
    cortex.run(*LATE, '-I', LIBRARY, *paths, late_object(), '-o', made)
    return made


def late_run(seconds, *words, flags=None):
    """A controller of this processor. Returns its status, how long it ran, and what it said."""
    program = late('late-controller', *sources('controller'))
    master, slave = pty.openpty()
    tty.setraw(slave)
    reader = threading.Thread(target=drain, args=(master, flags))
    reader.start()
    begun = time.monotonic()
    done = run('qemu-arm', program, '--seconds', str(seconds), *words[:-1], os.ttyname(slave), words[-1])
    took = time.monotonic() - begun
    os.close(slave)
    reader.join()
    return done.returncode, took, done.stderr


def late_controller():
    """A controller that nobody answers ends after its time, and the two seconds in which it waits for an answer."""
    status, took, said = late_run(4, os.path.join(room, 'late.csv'))
    return None if status == 1 and took > 5.5 else (status, took, said)


def large_table():
    """A restart of the module is written at the end of a table of 3 GB, and its length is kept."""
    table, keep, length = os.path.join(room, 'large.csv'), os.path.join(room, 'large.number'), 3 << 30
    with open(table, 'wb') as file:
        file.truncate(length - 1)
        file.seek(0, os.SEEK_END)
        file.write(b'\n')
    with open(keep, 'w', encoding='ascii') as file:
        file.write('005 %020d %020d\n' % (length, 0))
    said = late_run(2, '--keep', keep, table, flags=128)
    with open(table, 'rb') as file, open(keep, encoding='ascii') as kept:
        file.seek(length)
        row, number, now = file.read(99), *kept.read().split()[:2]
    os.remove(table)
    is_right = re.fullmatch(rb'\d+\.\d+,restart,,\n', row) and (int(number), int(now)) == (5, length + len(row))
    return None if is_right else (said, row, number, now)


def drain(master, flags=None):
    """Reads a terminal until its other end is closed; answers the first command if there are flags."""
    try:
        if flags is not None:
            answer_flags(master, flags)
        while os.read(master, 4096):
            pass
    except OSError:
        os.close(master)


def late_tester():
    """The tester and the adapter in C, by their own clocks."""
    folder = os.path.join(TOP, 'tools', 'conformance')
    names = sorted(name for name in os.listdir(folder) if name.endswith('.c') and name != 'shared.c')
    tester = late('late-tester', *(os.path.join(folder, name) for name in names))
    adapter = late('late-adapter', os.path.join(folder, 'adapters', 'adapter.c'))
    return fault_of('qemu-arm', tester, *PATIENT, '--own-clock', '--command', 'qemu-arm %s clock' % adapter, '4000')


def late_rows():
    missing = next((it for it in (LATE[0], 'qemu-arm') if not shutil.which(it)), None)
    for name, row in (('the controller after 24 days', late_controller), ('the tester after 24 days', late_tester),
                      ('a table of 3 GB', large_table)):
        is_tried = check.whole('32 bits: ' + name) if 'tester' in name else check.has_terminal('32 bits: ' + name)
        if is_tried and missing:
            check.skip('32 bits: ' + name, 'no %s here (Debian packages gcc-arm-linux-gnueabihf, qemu-user)' % missing)
        elif is_tried:
            check.fault('32 bits: ' + name, row)


# ---- Polls that race scans ----

def wrong_entry(link, count):
    """Polls without a pause until there are this many entries. Returns the first wrong one: it has the same state as the entry before
    of its input. If there is none, returns nothing, or why there is nothing to see."""
    states, number, entries, ends_at = {}, 0, 0, time.monotonic() + 3 * LONGEST
    while entries < count and time.monotonic() < ends_at:
        block, number = asked(link, bytes([54, number])), (number + 1) % 256
        if block[-5] & 4:
            states.clear()
        for place in range(3, 3 + 3 * block[2], 3):
            one, state = block[place] & 127, block[place] >> 7
            if states.get(one) == state:
                return 'entry %d, of input %d' % (entries, one)
            states[one], entries = state, entries + 1
    return None if entries > 1000 else 'only %d entries' % entries


def races(count, *changes):
    """The first wrong entry of this many if all inputs move in each scan and the link is polled without a pause."""
    with on_board(built(*changes)) as ports:
        # Once the board answers by lines, its link can be reached too.
        lines = board.Lines(ports[1])
        with socket.create_connection(('127.0.0.1', ports[0]), LONGEST) as link:
            link.setsockopt(socket.IPPROTO_TCP, socket.TCP_NODELAY, 1)
            asked(link, bytes([51, 64]) + b''.join(bytes([one, 1, 1]) for one in range(64)))
            with toggled(lines):
                return wrong_entry(link, count)


# ---- The tester ----

def tested(folder, image, events, options, *words):
    """What the tester says about the running firmware."""
    with on_board(folder, image) as (_, lines):
        board.Lines(lines).close()
        return run(TESTER, *PATIENT, *options, '--socket', '127.0.0.1:%d' % lines, *words, str(events))


def differs(image, events, *options):
    done = tested(built(), image, events, options, '--except', 'no-answer')
    return None if done.returncode == 0 else done.stdout[-600:] + done.stderr[-300:]


def differs_stepped():
    """The tester compares each octet, and says which command the firmware's maker answers."""
    done = tested(built(), 'stepped.elf', 12000, [], '--except', 'no-answer')
    is_said = re.search(r'(?m)^answered by its maker: 57, \d+ times$', done.stdout)
    return None if done.returncode == 0 and is_said else done.stdout[-600:] + done.stderr[-300:]


def is_not_found(events, *changes):
    """A planted fault: the tester finds a difference."""
    done = tested(built(*changes), 'firmware.elf', events, ['--own-clock'], '--first', '--except', 'no-answer')
    return None if done.returncode == 1 and '# the first rule that this breaks: ' in done.stdout else (done.returncode, done.stdout[-300:], done.stderr[-300:])


def tester_rows():
    if not os.path.exists(TESTER):
        check.skip('fio2070-test on the firmware', 'no fio2070-test here (make library)')
        return
    check.fault('fio2070-test on the firmware that is stepped', differs_stepped)
    check.fault('fio2070-test on the running firmware', differs, 'firmware.elf', 5000, '--own-clock')
    check.fault('found: ticks that are not made up for', is_not_found, 20000, LOST_TICKS)


# ---- A module that can't be changed ----

def recipe(folder, port, seconds):
    """The command of tools/conformance/README.md, for the controller of a folder and a module at this port."""
    command = re.search("(?m)^    fiolog live (.*) --exec '(.*)'$", text_of('tools/conformance/README.md'))
    controller = re.sub('examples/out', folder, re.sub('--seconds [0-9]+', '--seconds %d' % seconds, command[2]))
    return ['live', *command[1].split(), '--exec', re.sub('[0-9.]+:2070', '127.0.0.1:%d' % port, controller)]


def judged(seconds, *changes):
    """What `fiolog live` says of a running firmware whose inputs move, by the recipe."""
    folder = built(*changes)
    with on_board(folder) as (link, lines), toggled(board.Lines(lines)):
        return run(os.path.join(TOP, 'tools/fiolog'), *recipe(folder, link, seconds), cwd=folder, env=fiolog.ENVIRONMENT)


def recipe_rows():
    """A right module is not accused, and its transitions are recorded; a wrong one is."""
    if not os.path.exists(fiolog.LIBRARY):
        check.skip('the recipe for a module that is only polled', 'no libfio2070.so here (make library)')
        return
    for longer in LONGER:
        good = judged(3 * longer)
        is_long = re.search(r'polls \d\d+, ', good.stdout) and re.search(r'transitions \d\d\d', good.stderr)
        if is_long:
            break
    check.holds('the recipe for a module that is only polled', good.returncode == 0 and is_long and ', breaches 0, breaches in content 0' in good.stdout, good)
    if check.whole('found: a state that is always 1'):
        wrong = judged(12, STATE_STUCK)
        check.holds('found: a state that is always 1', wrong.returncode == 1 and ': alternate: ' in wrong.stdout, wrong)


def main():
    check.fault('a serial device that marks errors', marked_line)
    check.fault('a ring keeps the place of what it loses', ring_loses)
    check.fault('found: a ring without a mark after an overrun', finds_nothing, ring_loses, NOT_MARKED)
    check.fault('found: an overrun that is not cleared', finds_nothing, ring_loses, NOT_CLEARED)
    power_rows()
    if cortex.missing():
        check.skip('firmware and controller', cortex.missing())
        check.end()
    for compiler, options, folder in (('gcc', [], 'controller'), ('clang', [], 'controller'), ('arm-none-eabi-gcc', CORTEX, 'firmware'),
                                      ('clang', [*NEWLIB, *CORTEX], 'firmware')):
        if shutil.which(compiler):
            check.fault('no warning by %s: %s' % (compiler, folder), warns, compiler, options, folder)
    check.fault('what the firmware takes, as the page says', takes)
    check.fault('a short run', is_wrong, 2, [])
    check.fault('four relays, and the answers of the maker', relays_are_wrong)
    check.fault('frames of other stations, and a flood', stations_are_mixed)
    check.fault('a ring that is full within a frame', ring_is_wrong)
    check.fault('an item is read before its place is free', frees_early)
    if check.whole('found: a loss that is not reported, a place that is freed first'):
        check.fault('found: a loss that is not reported', finds_nothing, ring_is_wrong, NOT_REPORTED)
        check.fault('found: a place that is freed first', finds_nothing, frees_early, FREED_FIRST)
    held_rows()
    for option, end in FILES.items():
        check.fault('two controllers with one ' + end, second_goes_on, 'another controller has it', option)
    check.fault('two controllers with one .csv, without a number', second_goes_on, 'another controller has it', '', '--keep')
    check.fault('two controllers on one serial device', second_goes_on, os.strerror(errno.EBUSY), 'line')
    late_rows()
    if check.wants('the recipe for a module that is only polled') or check.wants('found: a state that is always 1'):
        recipe_rows()
    if check.whole('runs of firmware and controller'):
        for name, seconds, words in RUNS:
            check.fault('run: ' + name, is_wrong, seconds, words)
        check.fault('run: a buffer that runs over', runs_over)
        check.fault('run: frames late and repeated', rough_is_wrong)
        check.fault('found: a last command that is not sent again', is_missed, 2, BAD, NOT_AGAIN)
        # The transcript of this one has a block that is requested again.
        alone = ['--restart', 'ended', '--program', 'none']
        check.fault('run: a controller that ends before it keeps its number', is_wrong, 6, alone, ENDS_BETWEEN)
        check.fault('found: a block that is written twice', is_missed, 6, alone, ENDS_BETWEEN, NEVER_CUT)
        check.fault('found: a number that begins anew', is_missed, 6, alone, NUMBER_ANEW, ENDS_AT_ONE)
        check.fault('polls that race scans', races, 40_000)
        check.fault('found: scans that are not held off', finds_nothing, races, round(math.log(CHANCE, 1 - ONE_WRONG)), NO_HOLD)
        check.fault('found: a restart that is not seen', is_missed, 6, ['--restart', 'module'], UNSEEN_RESTART)
        tester_rows()
    check.end()


try:
    main()
except cortex.Failed as why:
    check.holds('building', False, str(why))
    check.end()
finally:
    shutil.rmtree(room, ignore_errors=True)
