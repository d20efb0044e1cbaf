#!/usr/bin/env -S python3 -B
"""`check` on transcripts of `simulate`: runs the two ends by scripts, writes down what the CPU's end sent and heard, and checks
that transcript. It is good, since the bus repeats no frame and delivers an answer before the next command or never, the module
is not restarted, and the CPU's end never runs out of memory. Last line: `N passed, M failed`."""

import os
import random
import subprocess
import tempfile

from support.check import Check
from support.tables import TOP, output_of

# What happens: `poll`, `all` or a command in hexadecimal is sent, heard and answered; with `lost-` the module never hears it, with
# `unheard-` the CPU never hears the answer.
ALL = 'send 3340' + ''.join('%02x0101' % place for place in range(64))
COMMANDS = {'poll': 'poll', 'all': ALL}
EVENTS = {'scans': ['scan ' + 16 * '0', 'scan ' + 16 * 'f'], 'sync': ['sync'], 'raise': ['raise 80']}
# Runs: name, the first number of the CPU, what happens. `all` opens all inputs, whose states one sample changes.
RUNS = [
    ('no frames', 0, ''),
    ('one poll', 0, 'poll'),
    ('the number after 255 is 0', 254, 'all' + 4 * ' scans poll'),
    ('lost polls', 7, 'all scans lost-poll lost-poll poll poll'),
    ('lost answers', 0, 'all scans unheard-poll scans unheard-poll scans poll poll'),
    ('polls and answers lost in turn', 3, 'all' + 20 * ' scans lost-poll unheard-poll lost-poll poll'),
    ('an overflow, and a block for each part of the rest', 0, 'all' + 9 * ' scans' + 6 * ' poll'),
    ('an overflow before a block is sent again', 0, 'all scans unheard-poll' + 9 * ' scans' + 3 * ' poll'),
    ('two overflows', 0, 'all' + 14 * ' scans' + ' poll' + 14 * ' scans' + 6 * ' poll'),
    ('every command', 0, '3180 3200020000 sync 33010c0101 34 35 3700000000000000010000000000000000 3ac8 3c lost-38 lost-3901 '
     'lost-3b0102 poll'),
    ('a refused configuration and one that is applied', 0, '3301400505 33020c01013f0101 scans scans poll'),
    ('flags that go up and are cleared', 0, 'raise 3100 poll 3180 poll'),
]


def script_of(first, words):
    """The script of a run."""
    lines, sent, answered = ['fio2070 script 1 2 %d' % first], 0, 0
    for word in words.split():
        fate, _, what = word.rpartition('-')
        if what in EVENTS:
            lines += EVENTS[what]
            continue
        sent += 1
        lines.append(COMMANDS.get(what, 'send ' + what))
        if fate != 'lost':
            answered += 1
            lines.append('to-module %d' % sent)
        if not fate:
            lines.append('to-cpu %d' % answered)
    return '\n'.join(lines) + '\n'


def drawn(seed):
    """A hundred parts at random, after a configuration."""
    choose = random.Random(seed)
    parts = ['lost-poll', 'unheard-poll', 'poll', 'poll', None, '35']
    return 'all ' + ' '.join(choose.choice(parts) or choose.randrange(12) * ' scans' for _ in range(100))


def lossy(seed):
    """The script of many rounds on a bus that loses frames."""
    words = ['--rounds', '400', '--loss', '0.%d' % seed, '--repeat', '0', '--seed', str(seed), '--inputs', '64']
    return subprocess.run([os.path.join(TOP, 'tools/lossy-script'), *words], stdout=subprocess.PIPE, text=True, check=True).stdout


def good(check, name, script):
    """A row: the transcript of the script is good, with the number of frames that were sent and heard."""
    if not check.wants(name):
        return
    report, status = output_of('simulate', script)
    with tempfile.NamedTemporaryFile('w', suffix='.script') as file:
        file.write(script)
        file.flush()
        words = [os.path.join(TOP, 'tools/transcript'), file.name]
        transcript = subprocess.run(words, input=report, stdout=subprocess.PIPE, text=True, check=False).stdout
    frames = sum(line.startswith(('poll', 'send', 'to-cpu')) for line in script.splitlines())
    check.equal(name, (0, 'good %d frames\n' % frames, 0), (status, *output_of('check', transcript)))


def main():
    check = Check()
    for name, first, words in RUNS:
        good(check, name, script_of(first, words))
    for seed in range(1, 11):
        good(check, 'drawn run %d' % seed, script_of(seed, drawn(seed)))
    for seed in range(1, 9):
        good(check, 'lossy script %d' % seed, lossy(seed))
    check.end()


main()
