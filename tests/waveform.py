#!/usr/bin/env -S python3 -B
"""Reads back the VCD files that `fiolog` writes, and compares them with the text of the program: of all examples and of random runs
by their transcripts, and of random blocks, with overflows, restarts and a counter that wraps around. If GTKWave's vcd2fst and fst2vcd are
installed, it compares what they make of it too. Last line: `N passed, M failed`."""

import glob
import itertools
import os
import random
import re
import shutil
import subprocess
import tempfile

from support.check import Check
from support.fiolog import fiolog, use_library
from support.tables import TOP, output_of

TURN = 1 << 32
ENTRY = re.compile(r' *input (\d+) state ([01]) stamp \d+ wide (\d+)')
HEAD = re.compile(r'block (\d+) entries \d+ status ([0-9a-f]{2}) stamp (\d+)')


def bits(form, places=range(8)):
    """A line for each bit of the number of a block."""
    return ''.join(form.format(place) + '\n' for place in places)


# What is written for examples/lost-answer.frames: block 255, then block 0.
LOST_ANSWER = '''$version fio2070 waveform $end
$timescale 1 ms $end
$scope module fio2070 $end
%s$var wire 1 g gap $end
$var wire 1 r back $end
$var wire 1 i0 input_0 $end
$upscope $end
$enddefinitions $end
#0
$dumpvars
0g
0r
%sxi0
$end
#1
%s0i0
#2
%s1i0
#3
''' % (bits('$var wire 1 n{0} block [{0}] $end', reversed(range(8))), bits('xn{}'), bits('1n{}'), bits('0n{}'))


class Dump:
    """A VCD file, read: the signals of the header, and each change after it as time, signal and value."""

    def __init__(self, text):
        header, _, body = text.partition('$enddefinitions $end\n')
        words = [line.split()[3:-1] for line in header.splitlines() if line.startswith('$var ')]
        self.names = {code: ''.join(name) for code, *name in words}
        self.unit = re.search(r'\$timescale\s+(.*?)\s+\$end', header)[1].replace(' ', '')
        self.changes, self.initial, time = [], [], None
        for line in body.splitlines():
            if line.startswith('#'):
                if time is not None and int(line[1:]) < time:
                    raise ValueError('time %d below %d' % (int(line[1:]), time))
                time = int(line[1:])
            elif line == '$end':
                self.initial, self.changes = self.changes, []
            elif not line.startswith('$'):
                self.changes.append((time, self.names[line[1:]], line[0]))

    def inputs(self):
        """The changes of inputs, without those to unknown: time, input, state."""
        return [(time, int(name[6:]), int(value)) for time, name, value in self.changes
                if name.startswith('input_') and value != 'x']

    def rises(self, name):
        """The times at which a signal goes to 1, if it goes back to 0 a millisecond later."""
        found = [(time, value) for time, other, value in self.changes if other == name]
        ups, downs = ([time for time, value in found if value == level] for level in '10')
        if sorted(set(downs)) != [time + 1 for time in sorted(set(ups))]:
            raise ValueError('%s is not 1 for a millisecond' % name)
        return sorted(set(ups))

    def value(self, name, time):
        """The value of a signal at the end of a millisecond."""
        return [value for when, other, value in self.initial + self.changes if other == name and when <= time][-1]

    def blocks(self):
        """For each change of an input the number of the block that carries it."""
        bits = ['x'] * 8
        for _, name, value in self.changes:
            if name.startswith('block['):
                bits[7 - int(name[6:-1])] = value
            elif name.startswith('input_') and value != 'x':
                yield int(''.join(bits), 2)


def drawn(frames):
    """The VCD of frames, what is said of it, and the status."""
    done = fiolog('convert', '-q', '--format', 'frames', '--to', 'vcd', text=frames)
    return done.out, done.err, done.status


def recorded(script, report):
    """The same of what the CPU took in a simulated run."""
    with tempfile.NamedTemporaryFile('w', suffix='.script') as file:
        file.write(script)
        file.flush()
        text = subprocess.run([os.path.join(TOP, 'tools', 'transcript'), file.name], input=report, stdout=subprocess.PIPE, check=True, text=True).stdout
    done = fiolog('record', '-q', '--format', 'transcript', '--vcd', text=text)
    return done.out, done.err, done.status


def entries_of(text):
    """The entries of a report's record, or of the blocks of `show` without those that are repeated at once."""
    entries = [tuple(map(int, ENTRY.fullmatch(line).groups())) for line in text.splitlines() if ENTRY.fullmatch(line)]
    if '\nrecord ' in text or '\nblock' not in '\n' + text:
        return entries
    blocks, last = [], None
    for part in re.split(r'(?m)^(?=block )', text)[1:]:
        number, _, stamp = HEAD.match(part).groups()
        found = [tuple(map(int, words)) for words in re.findall(r'(?m)^' + ENTRY.pattern + '$', part)]
        if (number, stamp, found) != last:
            blocks.append(found)
        last = number, stamp, found
    return [entry for block in blocks for entry in block]


def fault_of_dump(text, vcd):
    """The first difference of a VCD and a text in which the counter never goes back, or None."""
    dump, entries = Dump(vcd), entries_of(text)
    found = dump.inputs()
    if dump.unit != '1ms' or {'input_%d' % entry[0] for entry in entries} != {
            name for name in dump.names.values() if name.startswith('input_')}:
        return 'other signals or another unit'
    if [(place, state, time % TURN) for time, place, state in found] != entries:
        return 'other entries'
    span = sum((later[2] - entry[2]) % TURN for entry, later in itertools.pairwise(entries))
    if found and found[-1][0] - found[0][0] != span:
        return 'a span of %d ms, expected %d' % (found[-1][0] - found[0][0], span)
    return None


def fault_of_report(text, vcd):
    """The same of a report, with its gap marks, and the numbers of its blocks."""
    items = text[text.index('\nrecord '):].splitlines()[2:]
    dump = Dump(vcd)
    gaps = [int(below.split()[-1]) for item, below in itertools.pairwise(items) if item == 'gap']
    if dump.rises('gap') != sorted(set(gaps)) or dump.rises('back'):
        return 'other gap marks'
    taken = [int(count) for count in re.findall(r'(?m)^\d+ block entries (\d+) ', text)]
    number = int(re.search(r'(?m)^number (\d+)$', text)[1])
    numbers = [(number - len(taken) + place) % 256 for place, count in enumerate(taken) for _ in range(count)]
    return fault_of_dump(text, vcd) if list(dump.blocks()) == numbers else 'other numbers of blocks'


def settled(dump):
    """The signals whose value at the end of a millisecond differs from that before it, for each millisecond that has any."""
    state, found = {}, []
    for time, group in itertools.groupby(dump.initial + dump.changes, lambda change: change[0]):
        later = {**state, **{name: value for _, name, value in group}}
        found.append((time, {name: later[name] for name in later if later[name] != state.get(name)}))
        state = later
    return [change for change in found if change[1]]


def fault_of_gtkwave(vcd, folder):
    """That vcd2fst refuses a file, or that fst2vcd gives other changes back, or None."""
    path = os.path.join(folder, 'wave')
    with open(path + '.vcd', 'w', encoding='ascii') as file:
        file.write(vcd)
    made = subprocess.run(['vcd2fst', path + '.vcd', path + '.fst'], stdout=subprocess.PIPE, stderr=subprocess.STDOUT)
    back = subprocess.run(['fst2vcd', path + '.fst'], stdout=subprocess.PIPE, check=True).stdout.decode()
    if made.returncode or made.stdout:
        return 'vcd2fst: %r' % made.stdout
    return None if settled(Dump(back)) == settled(Dump(vcd)) else 'fst2vcd gives other changes'


def random_blocks(draw, start):
    """Good blocks: entries in the order of time, some blocks sent again, and commands between."""
    number, time, lines = draw.randrange(256), start, []
    for _ in range(draw.randrange(1, 40)):
        entries = []
        for _ in range(draw.choice([0, 1, 2, 5, 60])):
            time += draw.choice([0, 0, 1, 7, 900])
            entries.append(bytes([draw.randrange(2) << 7 | draw.randrange(64)]) + (time % 65536).to_bytes(2, 'big'))
        time += draw.randrange(20)
        body = bytes([182, number, len(entries)]) + b''.join(entries)
        stamp = (time % TURN).to_bytes(4, 'big')
        lines += ['36%02x' % number, (body + b'\0' + stamp).hex()]
        if draw.random() < 0.3:
            lines += ['36%02x' % number, (body + b'\2' + stamp).hex()]
        number = (number + 1) % 256
        time += draw.choice([0, 5, 1000, 100_000_000])
    return '\n'.join(lines) + '\n'


def lossy(words):
    """A lossy script with these options."""
    return subprocess.run([os.path.join(TOP, 'tools', 'lossy-script'), *words.split()], stdout=subprocess.PIPE, check=True, text=True).stdout


def outcome(fault_of, *given):
    """The fault that a comparison finds, a file that cannot be read counting as one."""
    try:
        return fault_of(*given)
    except (ValueError, KeyError, IndexError, subprocess.SubprocessError) as fault:
        return repr(fault)


def check_texts(check, folder):
    """A row for the VCD of each example and of random inputs."""
    scripts = [(os.path.basename(path), open(path, encoding='ascii').read())
               for path in sorted(glob.glob(os.path.join(TOP, 'examples', '*.script'))) if 'refused' not in path]
    scripts += [(words, lossy(words)) for words in ('--rounds 300 --seed %d --loss 0.%d' % (seed, seed) for seed in range(1, 7))]
    scripts += [('overflow', lossy('--rounds 60 --inputs 64 --change 1 --scans 40 --loss 0.2'))]
    frames = [(name, open(os.path.join(TOP, 'examples', name), encoding='ascii').read()) for name in ('lost-answer.frames', 'every-type.frames')]
    frames += [('random blocks %d' % seed, random_blocks(random.Random(seed), draw))
               for seed, draw in enumerate([0, 5, 70_000, TURN - 3, TURN - 70_000, TURN // 2, 3 * TURN // 2])]
    runs = [(name, script, output_of('simulate', script)[0]) for name, script in scripts]
    texts = [(name, report, fault_of_report, recorded(script, report)) for name, script, report in runs]
    texts += [(name, output_of('show', text)[0], fault_of_dump, drawn(text)) for name, text in frames]
    has_gtkwave = shutil.which('vcd2fst') and shutil.which('fst2vcd')
    for name, text, fault_of, (vcd, _, _) in texts:
        check.fault(name, outcome, fault_of, text, vcd)
        if has_gtkwave:
            check.fault(name + ' by GTKWave', outcome, fault_of_gtkwave, vcd, folder)
    if not has_gtkwave:
        check.skip('by GTKWave', 'no vcd2fst here (Debian package gtkwave)')


def check_edges(check):
    """A whole file; a counter that goes back or wraps around; what is unknown at a gap mark; no block."""
    with open(os.path.join(TOP, 'examples', 'lost-answer.frames'), encoding='ascii') as file:
        check.equal('a whole file', LOST_ANSWER, drawn(file.read())[0])
    turn = Dump(drawn('b600010cfffe0000000005\nb601018c00070000000009\n')[0])
    check.equal('a counter that turns over', [(TURN - 2, 12, 0), (TURN + 7, 12, 1)], turn.inputs())
    back = Dump(drawn('b600020c03e88c03e900000003ea\nb600028c00030c00050000000007\n')[0])
    check.equal('a restart', ([1002], [(1000, 12, 0), (1001, 12, 1), (1002, 12, 1), (1004, 12, 0)]), (back.rises('back'), back.inputs()))
    lost = Dump(drawn('b600010500010000000001\nb601010600050c00000005\n')[0])
    check.equal('a gap mark', ([5], ['x', '0', 'x']), (lost.rises('gap'), [lost.value('input_5', time) for time in (0, 4, 5)]))
    check.equal('a log without blocks', [], Dump(drawn('3605\n')[0]).changes)


def main():
    check = Check()
    use_library(check, 'waveforms')
    with tempfile.TemporaryDirectory() as folder:
        check_texts(check, folder)
    check_edges(check)
    check.end()


main()
