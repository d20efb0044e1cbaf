#!/usr/bin/env -S python3 -B
"""Refuses each growth of memory in turn: to `fio_allocations`, which makes calls that can run out of memory once each and
reports their answers, and to the program, which makes the others, at some inputs. Growth 1 is refused to a first run,
growth 2 to a second one, until a run meets no refusal. The number of growths of each call and of each input, and how many
octets they ask for, are compared with the table `tests/support/growths`, so that room that a call requests and never uses is
found too; `tests/refused-memory.py --counts` writes the table anew. A C compiler (`$CC`, otherwise `cc`) makes the library
that refuses; `fio_allocations` is proved and built first if it is not yet, and left out without the kit. Last line: `N passed, M failed`, where each run
that met a refusal and each row of the table counts."""

import collections
import glob
import os
import re
import shlex
import subprocess
import tempfile

from support.check import Check
from support.tables import CAN_PROVE, TOP, program
from support.waits import LONGEST

LIBRARY = os.path.join(TOP, 'tests', 'support', 'refuse.c')
ALLOCATIONS = os.path.join(TOP, 'crates', 'fio_allocations')
TABLE = os.path.join(TOP, 'tests', 'support', 'growths')

# Large texts with a fault at their ends: a line that is known to have no form only after its digits are read, and one that
# is known so at sight. The program asks for no more memory at the first.
TEXTS = {
    '20,000 frames and zz': '34\n' * 20_000 + 'zz\n',
    '10,000 polls': 'fio2070 script 1 2 0\n' + 'poll\n' * 10_000,
    '9,999 polls and zz': 'fio2070 script 1 2 0\n' + 'poll\n' * 9_999 + 'zz\n',
    '20,000 commands and zz': '> 34\n' * 20_000 + '> zz\n',
    'send zz': 'fio2070 script 1 2 0\nsend zz\n',
    'scan zz': 'fio2070 script 1 2 0\nscan zz\n',
    '> zz': '> zz\n',
    '? zz': '? zz\n',
}
ALIKE = [('simulate', 'send zz', 'scan zz'), ('check', '> zz', '? zz')]

# The word of a command line, and its inputs: each one of these texts, or a file of examples/.
COMMANDS = [
    ('show', 'capture.frames', '20,000 frames and zz'),
    ('simulate', 'lost-answer.script', 'restart.script', 'limits.script', 'overflow.script', 'capture.frames', '10,000 polls',
     '9,999 polls and zz', 'send zz', 'scan zz'),
    ('check', 'good.transcript', 'breaks-advance.transcript', 'capture.frames', '20,000 commands and zz', '> zz', '? zz'),
    ('record', 'good.transcript', 'breaks-advance.transcript', '20,000 commands and zz'),
    *((word, None) for word in ('--help', '--version', 'other', 'chek', '')),
]

# A run of events, the same events one by one, and what the run begins with, if anything: it stops at those events at which
# the steps meet a refusal.
RUNS = [
    ('World::run', 'World::step', 'World::new'),
    ('World::run of nine rounds', 'World::step of nine rounds', 'World::new'),
    ('World::run_with_limits', 'World::step with limits', 'World::with_limits'),
    ('World::step_all', 'World::step', None),
    ('World::step_all of nine rounds', 'World::step of nine rounds', None),
]

# The rows of calls that allocate nothing: they meet no refusal, except before the call.
WITHOUT_MEMORY = {
    'other calls of Module',
    'Poller::hear that adds nothing',
    'World::step that adds nothing',
    'read_script of faulty lines',
    'read_trace of faulty lines',
    'check_trace',
}

# What the program writes if it runs out of memory, and its status.
OUT_OF_MEMORY = ('fio2070: out of memory\n', 3)

# What the library writes to standard error when it refuses: how many octets were requested.
REFUSED = re.compile(r'refused (\d{20})\n')

# The outcome of a refused growth: its call reports that it was refused, or it was refused before the call and the call was
# not made, or the call did without.
KINDS = ('reported', 'before', 'passed over')
HEADING = 'reported before passed over    octets  call, or command and input'

# More growths than any run here requests.
MOST = 100_000


class Failed(Exception):
    """The library or a program could not be made."""


def make(folder, *words):
    """Runs a command that makes something."""
    done = subprocess.run(words, cwd=folder, stdin=subprocess.DEVNULL, stdout=subprocess.PIPE, stderr=subprocess.STDOUT)
    if done.returncode != 0:
        raise Failed('%s: %s' % (words[0], done.stdout.decode('latin-1')))


def is_stale(path):
    """Whether a program is not built, or some source is newer."""
    sources = [source for form in ('src', 'specs', 'proofs')
               for source in glob.glob(os.path.join(TOP, 'crates', '*', form, '**', '*.*'), recursive=True)]
    return not os.path.exists(path) or any(os.path.getmtime(source) > os.path.getmtime(path) for source in sources)


class Sweep:
    """Runs of programs with one growth refused each."""

    def __init__(self, check, library):
        self.check = check
        self.library = library
        # How many growths each row requested, by their outcome, and the octets that were requested in all by those reported.
        self.growths = {}

    def run(self, words, text, growth):
        """What a program writes, on standard error too, and its status. Growth 0 is none. The input is a file: from a pipe
        each read takes what has arrived, and the growths differ each time. Each program is called by one name, since it copies
        it, and that of dist/ has a longer one."""
        environment = dict(os.environ, LD_PRELOAD=self.library, REFUSED_GROWTH=str(growth))
        with tempfile.TemporaryFile() as file:
            file.write(text)
            file.seek(0)
            done = subprocess.run(['fio2070', *words[1:]], executable=words[0], stdin=file, env=environment, stdout=subprocess.PIPE,
                                  stderr=subprocess.STDOUT, timeout=LONGEST)
        return done.stdout.decode('latin-1'), done.returncode

    def refused(self, words, text):
        """What is written for each growth that is refused, in turn: before the refusal and after it, with the octets that it
        requested."""
        for growth in range(1, MOST):
            written, status = self.run(words, text, growth)
            parts = REFUSED.split(written, 1)
            if len(parts) == 1:
                return
            before, octets, after = parts
            yield growth, int(octets), before, after, status

    def count(self, name, kind, octets):
        if name in self.growths:
            self.growths[name].update({kind: 1, 'octets': octets * (kind == 'reported')})


def kind_of(answer):
    """What a row of `fio_allocations` says about a growth that was refused while it was made."""
    if answer.startswith('refused at '):
        return 'reported'
    return {'not begun': 'before', 'right': 'passed over'}.get(answer)


def sweep_calls(sweep):
    """Refuses each growth of `fio_allocations`. The row that follows the refusal is that of the call which met it."""
    calls = os.path.join(ALLOCATIONS, 'out', 'fio_allocations')
    if is_stale(calls):
        make(ALLOCATIONS, 'rt', 'run')
    with open(os.path.join(ALLOCATIONS, 'stdout'), encoding='utf-8') as file:
        ample = file.read().splitlines()
    names = [row.partition(': ')[0] for row in ample]
    places = {name: [] for name in names}
    sweep.growths.update((name, collections.Counter()) for name in names)
    for growth, octets, before, after, status in sweep.refused([calls], b''):
        above, below = before.splitlines(), after.splitlines()
        name, _, answer = (below or [''])[0].partition(': ')
        kind = kind_of(answer)
        others = above + ['%s: right' % name] + below[1:]
        sweep.check.holds('fio_allocations, growth %d' % growth, status == 0 and kind is not None and others == ample,
                          (above[-1:], below[:1], status))
        if kind is not None:
            sweep.count(name, kind, octets)
        if kind == 'reported' and name in places:
            places[name].append(int(answer.rpartition(' ')[2]))
    for name in names:
        met = {kind: sweep.growths[name][kind] for kind in ('reported', 'passed over')}
        is_right = not any(met.values()) if name in WITHOUT_MEMORY else met['reported'] > 0
        sweep.check.holds('growths that %s asked for' % name, is_right, met)
    for run, steps, start in RUNS:
        sweep.check.equal('%s stops where the same events are refused one by one' % run,
                          [0] * len(places.get(start, [])) + places[steps], places[run])


def name_of(word, given):
    """The row of a command and its input."""
    return ' '.join(filter(None, ['fio2070', word, given]))


def input_of(given):
    """The octets of an input."""
    if given is None:
        return b''
    if given in TEXTS:
        return TEXTS[given].encode()
    with open(os.path.join(TOP, 'examples', given), 'rb') as file:
        return file.read()


def sweep_program(sweep):
    """Refuses each growth of the built program: it writes that it is out of memory and nothing else, or the text that it
    writes with ample memory. The library's `collect` requests room ahead, and does without if that is refused."""
    for word, given in ((word, given) for word, *inputs in COMMANDS for given in inputs):
        name, text, words = name_of(word, given), input_of(given), [program(), *filter(None, [word])]
        sweep.growths[name] = collections.Counter()
        ample = sweep.run(words, text, 0)
        for growth, octets, before, after, status in sweep.refused(words, text):
            answer = before + after, status
            sweep.check.holds('%s, growth %d' % (name, growth), answer in (OUT_OF_MEMORY, ample), answer)
            sweep.count(name, 'reported' if answer == OUT_OF_MEMORY else 'passed over', octets)
    for word, one, other in ALIKE:
        sweep.check.equal('growths of %s at %r and at %r' % (word, one, other), *(sweep.growths[name_of(word, it)] for it in (one, other)))


def table_of(sweep):
    """The table of the growths and of their octets, as its file has it."""
    rows = ['%8d %6d %11d %9d  %s' % (*(counts[kind] for kind in (*KINDS, 'octets')), name) for name, counts in sweep.growths.items()]
    return '\n'.join([HEADING] + rows) + '\n'


def compare(sweep):
    """Each row of the table is that of this sweep, without the kit those of the program."""
    with open(TABLE, encoding='utf-8') as file:
        pinned = file.read().splitlines()
    found = table_of(sweep).splitlines()
    rows = [{row[HEADING.index('call'):]: row for row in table} for table in (pinned, found)]
    for name in sorted(rows[0].keys() | rows[1].keys() if CAN_PROVE else rows[1].keys()):
        sweep.check.equal('growths of %s, as they are pinned' % name, *(table.get(name) for table in rows))


def write_table(sweep):
    """Pins what this sweep found."""
    with open(TABLE, 'w', encoding='utf-8') as file:
        file.write(table_of(sweep))


def main():
    check = Check(counts=False)
    with tempfile.TemporaryDirectory() as folder:
        library = os.path.join(folder, 'refuse.so')
        compiler = shlex.split(os.environ.get('CC') or 'cc')
        try:
            make(folder, *compiler, '-shared', '-fPIC', '-O1', '-o', library, LIBRARY)
            sweep = Sweep(check, library)
            if CAN_PROVE:
                sweep_calls(sweep)
            else:
                check.skip('fio_allocations', 'no rt here (the Rattle kit)')
            sweep_program(sweep)
        except (Failed, OSError, subprocess.TimeoutExpired) as fault:
            check.equal('the library and the programs are made', None, str(fault))
            check.end()
    if check.given.counts:
        write_table(sweep)
    else:
        compare(sweep)
    check.end()


main()
