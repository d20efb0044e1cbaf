#!/usr/bin/env -S python3 -B
"""What is tried for long and at random: both ends of the library in a soak beside an independent model; every call with random
octets and structs, and the sums of what they return by several builds; both ends of examples/ on a hostile line, and the octets of one. Each row takes
some seconds, and prints what it ran; `tests/endurance.py --all SECONDS` runs each driver for that time, as `./bench --soak SECONDS`
does. With `--all` the calls also run under a fuzzer with sanitizers, and on other processors. Last line: `N passed, M failed`."""

import collections
import os
import re
import shutil
import subprocess
import sys
import tempfile
import time

from support import cortex
from support.check import Check
from support.tables import TOP

C = os.path.join(TOP, 'tests/support/c')
DIST = os.path.join(TOP, 'dist')
STRICT = ['-std=c99', '-Wall', '-Wextra', '-Wpedantic', '-Wconversion', '-Werror']
SANITIZED = ['-g', '-O1', '-fno-sanitize-recover=all', '-fsanitize=fuzzer,address,undefined']
# Scans of a run of the soak, cases of a group of calls.
SCANS, CASES = 300000, 100
# What is beside the ends of the library in the soak, and what it is made with.
BESIDE = [os.path.join('planted', name) for name in ('module.c', 'module_answers.c', 'module_polls.c', 'cpu.c', 'quirks.c')]
INCLUDES = ['-I', os.path.join(TOP, 'include'), '-I', os.path.join(TOP, 'tools/conformance')]
# Faults of it, each of which the soak finds: name, file, text, replacement.
PLANTED = [('filters that take a sample more', 'planted/module.c', '{COUNTER_STEP, 1}', '{COUNTER_STEP, 1}, {LEADING_PLUS, 1}'),
           ('blocks without the bit for a loss', 'planted/module.c', '{LOST_SET, 1}, ', ''),
           ('repeats without their bit', 'planted/module.c', '{AGAIN_SET, 1}, ', ''),
           ('a CPU without gap marks', 'planted/cpu.c', ', {GAP_MARKS, 1}', ''),
           ('a transition that is recorded twice', 'soak/soak.c', '        history->next++;\n        run.counts.items++;', '        run.counts.items++;')]
# Builds of dist/fio2070.c: name, compiler, its options, what runs the program.
BUILDS = [('gcc -O0', 'gcc', ['-O0'], []), ('clang -O3, fast', 'clang', ['-O3', '-DFIO2070_FAST'], []),
          ('powerpc, big-endian', 'powerpc-linux-gnu-gcc', ['-Os', '-static'], ['qemu-ppc']),
          ('ARM', 'arm-linux-gnueabihf-gcc', ['-O2', '-static'], ['qemu-arm'])]

check = Check(seconds=(2, 5, 20))
room = tempfile.mkdtemp()


def run(*words, timeout=None, **settings):
    return subprocess.run(words, capture_output=True, text=True, errors='replace', check=False,
                          timeout=timeout or 1200 + check.given.seconds, **settings)


def sources(folder, *without):
    """The files of C in a folder of tests/support/c."""
    return [os.path.join(C, folder, name) for name in sorted(os.listdir(os.path.join(C, folder)))
            if name.endswith('.c') and name not in without]


def built(name, compiler, options, files):
    """Builds a program, and returns its path; fails the row that it is for."""
    program = os.path.join(room, name)
    done = run(compiler, *options, *files, '-o', program)
    check.equal('build of ' + name, (0, ''), (done.returncode, done.stderr[-600:]))
    return program


def archive():
    """The archive of the library, which `make library` makes in this tree if it is not there."""
    run('make', '-s', '-C', TOP, 'library')
    return os.path.join(TOP, 'libfio2070.a')


def repeated(words, seconds):
    """Runs a program with the seeds 1, 2, 3 .. for this time. Returns the output of each run, the last of which may have failed."""
    outputs, end = [], time.monotonic() + seconds
    while not outputs or time.monotonic() < end and outputs[-1].returncode == 0:
        outputs.append(run(*words, str(len(outputs) + 1)))
    return outputs


# ---- The soak ----

def soaked(program):
    """Runs the soak; prints what it did. Returns what is wrong."""
    outputs, total = repeated([program, str(SCANS)], check.given.seconds), collections.Counter()
    for done in outputs:
        total.update({name: int(number) for name, number in re.findall(r'([a-z-]+) (\d+)', done.stdout)})
    print('soak: ' + ', '.join('%s %d' % pair for pair in total.items()))
    few = [name for name in ('items', 'marks', 'repeated', 'restarts', 'outages', 'lost') if not total[name]]
    return outputs[-1].stdout + outputs[-1].stderr if outputs[-1].returncode else few and 'none of %s' % few


def is_not_found(place, path, old, new):
    """A planted fault: the soak says that something is wrong."""
    folder = os.path.join(room, 'planted%d' % place)
    for name in ('soak', 'planted'):
        shutil.copytree(os.path.join(C, name), os.path.join(folder, name))
    for name in ('random_numbers.h', 'encode.h'):
        shutil.copy2(os.path.join(C, name), folder)
    with open(os.path.join(folder, path), encoding='utf-8') as file:
        text = file.read()
    if text.count(old) != 1:
        return '%s does not have %r once' % (path, old)
    with open(os.path.join(folder, path), 'w', encoding='utf-8') as file:
        file.write(text.replace(old, new))
    files = [os.path.join(folder, name) for name in ['soak/soak.c', *BESIDE]]
    program = built('planted%d.out' % place, 'cc', ['-O2', *INCLUDES], [*files, archive()])
    done = run(program, str(SCANS), '1')
    return None if done.returncode == 1 and done.stdout.startswith('WRONG: ') else done


def soak_rows():
    if not check.wants('soak'):
        return
    program = built('soak', 'cc', [*STRICT, '-O2', *INCLUDES], [*sources('soak'), *(os.path.join(C, name) for name in BESIDE), archive()])
    check.fault('soak: both ends beside a model', soaked, program)
    for place, (name, *change) in enumerate(PLANTED):
        check.fault('soak: found: ' + name, is_not_found, place, *change)


# ---- Calls ----

def sums_differ(program, words):
    """The first run whose sums are not those of the archive."""
    outputs = repeated([*words, program, str(CASES)], check.given.seconds)
    for seed, done in enumerate(outputs, 1):
        wanted = run(os.path.join(room, 'sums'), str(CASES), str(seed))
        if done.returncode or done.stdout != wanted.stdout:
            return 'seed %d: %s %s' % (seed, done.stdout, done.stderr)
    print('calls: %d cases of each group by %s' % (CASES * len(outputs), os.path.basename(program)))
    return None


def call_rows():
    if not check.wants('calls'):
        return
    program = built('sums', 'cc', [*STRICT, '-O2', '-I', os.path.join(TOP, 'include')], [*sources('calls'), archive()])
    check.fault('calls: what the header says of them', sums_differ, program, [])
    if not check.whole('calls: sums of other builds'):
        return
    for place, (name, compiler, options, words) in enumerate(BUILDS):
        missing = [one for one in [compiler, *words] if not shutil.which(one)]
        if missing:
            check.skip('calls: sums of ' + name, 'no %s here' % missing[0])
            continue
        files = [*sources('calls'), os.path.join(DIST, 'fio2070.c')]
        program = built('build%d' % place, compiler, ['-std=c99', *options, '-I', DIST], files)
        check.fault('calls: sums of ' + name, sums_differ, program, words)


def fuzzed(program):
    """Runs a fuzzer; prints how many inputs it gave. Returns what it found."""
    done = run(program, '-max_total_time=%d' % check.given.seconds, '-print_final_stats=1', '-max_len=4096', cwd=room)
    inputs = re.search(r'stat::number_of_executed_units: +(\d+)', done.stderr)
    print('%s: inputs %s' % (os.path.basename(program), inputs and inputs[1]))
    return done.stderr[-2000:] if done.returncode else None


def fuzz_rows():
    if not check.whole('fuzzer: all calls') & check.whole('fuzzer: what a controller reads') or not check.wants('fuzzer'):
        return
    if not shutil.which('clang'):
        check.skip('fuzzer', 'no clang here')
        return
    examples = os.path.join(TOP, 'examples')
    library = built('fuzzed.o', 'clang', [*SANITIZED, '-c', '-I', DIST], [os.path.join(DIST, 'fio2070.c')])
    check.fault('fuzzer: all calls', fuzzed, built('fuzzer of all calls', 'clang', [*SANITIZED, '-I', DIST],
                                                   [*sources('calls', 'sums.c'), library]))
    folder = os.path.join(examples, 'controller')
    files = [os.path.join(C, 'line_fuzz.c'), os.path.join(folder, 'controller_link.c'), library]
    check.fault('fuzzer: what a controller reads', fuzzed, built('fuzzer of what a controller reads', 'clang', [
        *SANITIZED, '-I', DIST, '-I', folder], files))


# ---- Whole ends ----

def is_spoiled(programs):
    """A run on a hostile line; prints what was done to it. Returns what is wrong."""
    from support import hostile
    folder = tempfile.mkdtemp(dir=room)
    counts, wrong = hostile.run(programs, folder, 1, check.given.seconds)
    print('hostile line: ' + ', '.join('%s %d' % pair for pair in sorted(counts.items())))
    return wrong


def line_rows():
    if not check.whole('a hostile line under both ends'):
        return
    if cortex.missing():
        check.skip('a hostile line under both ends', cortex.missing())
        return
    examples, programs = os.path.join(TOP, 'examples'), os.path.join(room, 'examples')
    done = run('make', '-s', '-C', examples, 'all', 'OUT=' + programs, 'LIBRARY=' + DIST)
    check.equal('build of a hostile line under both ends', (0, ''), (done.returncode, done.stderr[-600:]))
    sys.path[:0] = [os.path.join(examples, 'line')]
    check.fault('a hostile line under both ends', is_spoiled, programs)


try:
    soak_rows()
    call_rows()
    fuzz_rows()
    line_rows()
    check.end()
finally:
    shutil.rmtree(room, ignore_errors=True)
