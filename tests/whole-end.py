#!/usr/bin/env -S python3 -B
"""The CPU's end in C++ of examples/cpp: it is compiled, and runs against a module of the library at the other end of two pipes, a test's
own bus between them. Frames are lost, damaged, doubled and late in turn, the line brings noise, and the module restarts: each change of
an input comes once and in order. So they do from the module's end in Rust of the crate's examples. With `--all` also by clang, with
sanitizers. Last line: `N passed, M failed`."""

import os
import shutil
import subprocess
import sys
import tempfile
import time

from support.check import Check
from support.fiolog import LIBRARY
from support.tables import TOP
from support.waits import LONGEST

os.environ['FIO2070_LIBRARY'] = LIBRARY
sys.path.insert(0, os.path.join(TOP, 'bindings', 'python'))

SOURCE = 'examples/cpp/cpu.cpp'
STRICT = ['-std=c++17', '-Wall', '-Wextra', '-Wpedantic', '-Wconversion', '-Wshadow', '-Werror']
BUILDS = [('g++', ['-O2'], False), ('clang++', ['-g', '-O1', '-fsanitize=address,undefined', '-fno-sanitize-recover=all'], True)]
ALL = (1 << 64) - 1
# Polls with a change of an input, and polls without one below them, so that nothing waits. It does both twice, and restarts between.
CHANGES, PAUSE = 30, 25
INPUTS = (0, 12, 63)
POLL, CONFIGURE = 54, 51


class Bus:
    """The module's end of the line, and what the bus does to it. Its clock is the module's: a command takes 12 scans."""

    def __init__(self, fio2070, troubles):
        self.fio2070, self.troubles = fio2070, troubles
        self.module, self.wire = fio2070.Module(id=2), fio2070.Wire(address=0x14, control=0x83)
        self.levels, self.commands, self.late = ALL, 0, b''
        self.is_configured, self.polls, self.restarts = False, 0, 0
        # What the CPU's end has to write, without times: a module that was switched on is one that restarted.
        self.due = ['restart']

    def change(self):
        """One input goes to its other level, for longer than its filter."""
        place = INPUTS[self.polls % len(INPUTS)]
        self.levels ^= 1 << place
        self.due.append('input %d state %d' % (place, self.levels >> place & 1))

    def restart(self):
        """The module begins anew; its inputs are at 1 then, as it begins."""
        self.module.restart()
        self.restarts += 1
        self.levels, self.is_configured, self.polls = ALL, False, 0
        self.due.append('restart')

    def is_done(self):
        """Whether both halves are over."""
        return self.restarts == 1 and self.polls == CHANGES + PAUSE

    def answer(self, message):
        """What the module says to a command, as the bus carries it."""
        self.commands += 1
        if message[0] == CONFIGURE:
            self.is_configured = True
        elif message[0] == POLL and self.is_configured:
            self.polls += 1
            if self.polls <= CHANGES:
                self.change()
            elif self.polls == CHANGES + PAUSE and not self.restarts:
                self.restart()
        self.scan()
        said = self.module.receive(message)
        return self.carried(self.fio2070.wire_frame(said) if said else b'')

    def scan(self, count=12):
        """The milliseconds of a command."""
        for _ in range(count):
            self.module.scan(self.levels)

    def carried(self, frame):
        """What the bus makes of an answer."""
        if not self.troubles:
            return frame
        late, self.late = self.late, b''
        turn = self.commands % 11
        if turn == 3:
            return late
        if turn == 5:
            return late + frame[:4] + bytes([frame[4] ^ 1]) + frame[5:]
        if turn == 7:
            return late + b'\x7e\x14\x83\x01\x02\x7e noise' + frame + frame
        if turn == 9:
            self.late = frame
            return late
        return late + frame


def run(fio2070, program, troubles):
    """Runs the CPU's end. Returns what it wrote, without times; what it should have; and its status when the line ends."""
    bus = Bus(fio2070, troubles)
    with subprocess.Popen([program], stdin=subprocess.PIPE, stdout=subprocess.PIPE, stderr=subprocess.PIPE) as process:
        begun = time.monotonic()
        while not bus.is_done() and time.monotonic() - begun < LONGEST:
            octets = os.read(process.stdout.fileno(), 4096)
            if not octets:
                break
            for heard in bus.wire.read(octets):
                process.stdin.write(bus.answer(heard.message))
                process.stdin.flush()
        process.stdin.close()
        # What it still sends is read, so that it does not wait.
        process.stdout.read()
        said = process.stderr.read().decode()
    return [line.partition(' at ')[0] for line in said.splitlines()], bus.due, process.returncode


def of_rust(check, program, room):
    """The CPU's end and the module's end in Rust, each with the other's output: the module changes an input each 50 ms, in order."""
    cargo = shutil.which('cargo')
    if not cargo:
        check.skip('the end in Rust', 'cargo is not installed')
        return
    beside = os.path.join(os.path.dirname(cargo), 'rustc')
    settings = {'FIO2070_LIB_DIR': os.path.dirname(LIBRARY), 'CARGO_TARGET_DIR': room, **({'RUSTC': beside} if os.path.exists(beside) else {})}
    built = subprocess.run([cargo, 'build', '--offline', '--quiet', '--example', 'module'], cwd=os.path.join(TOP, 'bindings/rust/fio2070'),
                           env={**os.environ, **settings}, stdout=subprocess.PIPE, stderr=subprocess.STDOUT, text=True, check=False)
    check.equal('cargo builds the end in Rust', (0, ''), (built.returncode, built.stdout))
    if built.returncode:
        return
    to_module, from_module = os.pipe(), os.pipe()
    with subprocess.Popen([os.path.join(room, 'debug/examples/module')], stdin=to_module[0], stdout=from_module[1]) as module, \
            subprocess.Popen([program], stdin=from_module[0], stdout=to_module[1], stderr=subprocess.PIPE, text=True) as cpu:
        for end in (*to_module, *from_module):
            os.close(end)
        said = [cpu.stderr.readline() for _ in range(2 + CHANGES)]
        cpu.kill()
        module.wait(LONGEST)
    found = [line.partition(' at ')[0].strip() for line in said]
    # What changed before the CPU had configured the inputs is not reported.
    first = found[1].split()[1] if found[1].startswith('input ') else '0'
    check.equal('the end in Rust: each change once and in order', ['restart'] + ['input %d state 0' % (int(first) + place) for place in range(1 + CHANGES)], found)
    times = [int(line.split()[-2]) for line in said[1:] if ' at ' in line]
    check.equal('the end in Rust: a change each 50 ms', [50] * CHANGES, [later - one for one, later in zip(times, times[1:])])


def ends(check, fio2070, compiler, flags, room):
    """The rows of one compiler."""
    program = os.path.join(room, 'cpu')
    done = subprocess.run([compiler, *STRICT, *flags, '-I', os.path.join(TOP, 'include'), os.path.join(TOP, SOURCE),
                           os.path.join(os.path.dirname(LIBRARY), 'libfio2070.a'), '-o', program], stdout=subprocess.PIPE, stderr=subprocess.STDOUT, text=True, check=False)
    check.equal('%s compiles %s' % (compiler, SOURCE), (0, ''), (done.returncode, done.stdout))
    if done.returncode:
        return
    for name, troubles in ('a good line', False), ('a bad line', True):
        said, due, status = run(fio2070, program, troubles)
        check.equal('%s, by %s: each change once and in order' % (name, compiler), due, said)
        check.equal('%s, by %s: the end of the line' % (name, compiler), 0, status)
    if compiler == 'g++':
        of_rust(check, program, os.path.join(room, 'target'))


def main():
    check = Check()
    if not os.path.exists(LIBRARY):
        check.skip('the end in C++', 'no libfio2070.so here (make library)')
        check.end()
    import fio2070
    for compiler, flags, is_whole in BUILDS:
        if is_whole and not check.whole('by ' + compiler):
            continue
        if not shutil.which(compiler):
            check.skip('by ' + compiler, 'it is not installed')
            continue
        with tempfile.TemporaryDirectory() as room:
            ends(check, fio2070, compiler, flags, room)
    check.end()


main()
