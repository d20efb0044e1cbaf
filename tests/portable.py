#!/usr/bin/env -S python3 -B
"""Builds the portable library of `make portable`, and compares what all its calls return for random octets and frames with what
those of the library for x86-64 do: here by one compiler; with `--all` by each compiler and with sanitizers, on two other
processors under qemu-user, in a smaller run on a Cortex-M4 under qemu-system-arm, and by wrong translators, each of which is
found; and what analysers warn of is argued away. With `--all --every` on all processors, and by all wrong translators. Last line:
`N passed, M failed`."""

import functools
import glob
import os
import re
import shutil
import subprocess
import sys

from support import analysers, cortex
from support.check import Check
from support.room import fault_of, path, room, run, written
from support.tables import TOP
from support.translators import WRONG, changed

PORTABLE = os.path.join(TOP, 'portable')
TRANSLATOR = os.path.join(TOP, 'tools', 'portable')
MODULE = os.path.join(TOP, 'crates/fio_c/out/wasm64-unknown-unknown/fio_c.wasm')
CALLS = sorted(glob.glob(os.path.join(TOP, 'tests/support/c/calls/*.c')))
STRICT = ['-Wall', '-Wextra', '-Wpedantic', '-Wconversion', '-Werror']
# By one compiler: each takes long for a file of this size.
FAULTS = {'gcc': ['-fsanitize=address,undefined', '-fno-sanitize-recover=all']}
QUICKEST = 'clang' if shutil.which('clang') else 'gcc'
# name, prefix of the compiler, its options, command of qemu-user.
PROCESSORS = [('powerpc', 'powerpc-linux-gnu-', [], 'qemu-ppc'),
              ('armhf', 'arm-linux-gnueabihf-', ['-mthumb'], 'qemu-arm'),
              ('aarch64', 'aarch64-linux-gnu-', [], 'qemu-aarch64'),
              ('m68k', 'm68k-linux-gnu-', ['-m68020'], 'qemu-m68k'),
              ('riscv64', 'riscv64-linux-gnu-', [], 'qemu-riscv64'),
              ('s390x', 's390x-linux-gnu-', [], 'qemu-s390x')]
USUAL = 2
# Cases and seed of a comparison.
RUN = ['100', '20261124']
SHORT = ['20', '7']
# The most instructions of calls on a Cortex-M4, compiled with -Os, and the most octets of stack.
MOST = {'module_scan, nothing changes': 150, 'module_scan, inputs 0 and 1 change': 1500,
        'module_scan, inputs 0 and 63 change': 1500, 'module_scan, 64 inputs change': 15000,
        'module_receive, poll, 20 entries': 3000, 'poller_hear, 20 entries': 3000, 'show, 255 entries': 2048,
        'module_receive, poll': 1280, 'poller_hear, 255 entries': 1024}

check = Check(every=False)


def build(compiler, options, name, folder=PORTABLE):
    """Builds the comparison over a portable library. Returns what failed."""
    return fault_of(compiler, '-std=c99', *options, '-DFIO2070_TRAP=abort', '-include', 'stdlib.h', '-I', folder, *CALLS,
                    os.path.join(folder, 'fio2070.c'), '-o', path(name))


def differs(command):
    """The comparison by this command writes what the library for x86-64 does."""
    done = run(*command, *RUN)
    if done.returncode:
        return 'status %d %s' % (done.returncode, done.stderr[-300:])
    return None if done.stdout == expected else 'other sums: %s' % done.stdout


def translate(header, out, module=MODULE):
    return run(sys.executable, os.path.join(TRANSLATOR, 'translate'), module, header, out)


def refuses(change, words):
    """The translator stops at a changed header with this message."""
    with open(os.path.join(TOP, 'include/fio2070.h'), encoding='utf-8') as file:
        header = written('changed.h', change(file.read()))
    done = translate(header, path('refused'))
    return None if done.returncode and words in done.stderr else 'status %d: %s' % (done.returncode, done.stderr)


def long_lines():
    """The lines, with those that go on below, that are longer than C99 has to take."""
    with open(os.path.join(PORTABLE, 'fio2070.c'), encoding='utf-8') as file:
        return [line[:60] for line in file.read().replace('\\\n', '').split('\n') if len(line) > 4095]


def is_taken(compiler, standard):
    """Whether a compiler of an older standard takes the file."""
    said = run(compiler, '-std=' + standard, '-w', '-fsyntax-only', '-x', 'c++' if '+' in standard else 'c', os.path.join(PORTABLE, 'fio2070.c'))
    return 'fio2070.c is C99, or C++11' not in said.stderr


@functools.cache
def object_fault(compiler):
    """Compiles the library alone, to COMPILER.o. Returns what failed, or what the compiler warns about."""
    return fault_of(compiler, '-std=c99', '-Os', '-fPIC', *STRICT, '-c', os.path.join(PORTABLE, 'fio2070.c'),
                    '-o', path(compiler + '.o'))


def is_alone(compiler):
    """The object needs three functions, and has no data that is written."""
    fault = object_fault(compiler)
    names = run('nm', path(compiler + '.o')).stdout
    others = [line for line in names.splitlines()
              if re.search(r' [dDbBC] ', line) or re.search(r' U (?!mem(cpy|move|set)$)', line)]
    return fault or others or None


def on_processor(name, prefix, options, qemu):
    """The comparison on another processor."""
    return build(prefix + 'gcc', ['-O1', '-static', *options], name) or differs([qemu, path(name)])


def others():
    if not check.whole('all calls on other processors'):
        return
    for place, (name, prefix, options, qemu) in enumerate(PROCESSORS):
        row = 'all calls on ' + name
        missing = [it for it in (prefix + 'gcc', qemu) if not shutil.which(it)]
        if place >= USUAL and not check.given.every:
            continue
        if missing:
            check.skip(row, 'no %s here (Debian packages gcc-%s and qemu-user)' % (missing[0], prefix[:-1]))
        else:
            check.fault(row, on_processor, name, prefix, options, qemu)


def on_cortex(options, *words):
    """What a program writes on a Cortex-M4, or why it does not run."""
    try:
        return cortex.output_of(room, options, PORTABLE, *words)
    except cortex.Failed as why:
        return str(why)


def within_limits():
    """On a Cortex-M4 no call takes more instructions than docs and users count on."""
    counted = dict(line.split(' ', 1)[1].rsplit(' ', 1) for line in on_cortex(['-Os'], 'cortex_m/counts.c', ['counts']).splitlines())
    return [(case, counted.get(case)) for case, most in MOST.items() if int(counted.get(case, most + 1)) > most]


def cortex_rows():
    if not check.whole('frames and a link on a Cortex-M4'):
        return
    if cortex.missing():
        check.skip('frames and a link on a Cortex-M4', cortex.missing())
        return
    source = os.path.join(TOP, 'tests/support/c/small.c')
    fault = fault_of('gcc', '-O1', '-I', os.path.join(TOP, 'include'), source, os.path.join(TOP, 'libfio2070.a'), '-o', path('small'))
    check.holds('frames and a link on x86-64', not fault, fault)
    for options in [['-Os']] + [['-O2', '-DFIO2070_FAST']] * check.given.every:
        check.equal('frames and a link on a Cortex-M4, ' + ' '.join(options), run(path('small')).stdout, on_cortex(options, 'small.c', ['small']))
    check.fault('limits on a Cortex-M4', within_limits)


def archive_for_aarch64():
    """The archive of `make library TARGET=aarch64` gives the same results."""
    return fault_of('make', '-s', '-C', TOP, 'library', 'TARGET=aarch64') or fault_of(
        'aarch64-linux-gnu-gcc', '-O1', '-static', '-I', os.path.join(TOP, 'include'), *CALLS,
        os.path.join(TOP, 'aarch64/libfio2070.a'), '-o', path('archive')) or differs(['qemu-aarch64', path('archive')])


def link(name, *sources):
    """Builds a program over the object that gcc makes of the library. Returns what failed."""
    return object_fault('gcc') or fault_of('gcc', '-O1', '-I', PORTABLE, *sources, path('gcc.o'), '-o', path(name))


def shows():
    """examples/c/decode.c over the portable library writes what is beside the examples."""
    fault = link('decode', os.path.join(TOP, 'examples/c/decode.c'))
    for name in sorted(os.listdir(os.path.join(TOP, 'examples'))):
        if not fault and name.endswith('.frames'):
            with open(os.path.join(TOP, 'examples', name), 'rb') as file:
                got = subprocess.run([path('decode')], stdin=file, capture_output=True, check=False).stdout
            with open(os.path.join(TOP, 'examples', name[:-7] + '.shown'), 'rb') as file:
                fault = None if got == file.read() else name
    return fault


def polls():
    """The CPU's loop of examples/c/poller.c writes over the portable library what it writes over that for x86-64."""
    source = os.path.join(TOP, 'examples/c/poller.c')
    fault = link('poller', source) or fault_of('gcc', '-O1', '-I', os.path.join(TOP, 'include'), source,
                                               os.path.join(TOP, 'libfio2070.a'), '-o', path('native-poller'))
    if fault:
        return fault
    ours, due = run(path('poller')), run(path('native-poller'))
    return None if ours.returncode == 0 and ours.stdout == due.stdout != '' else ours.stdout + ours.stderr


def has_rows():
    """The rows of tests/rows.json hold of it."""
    return object_fault('gcc') or fault_of('gcc', '-shared', path('gcc.o'), '-o', path('gcc.so')) or fault_of(
        os.path.join(TOP, 'tests/support/rows.py'), path('gcc.so'))


def wraps():
    """The C++ header beside the library passes its rows over it."""
    return object_fault('gcc') or fault_of(
        'g++', '-std=c++17', '-O1', '-Wall', '-Wextra', '-Wpedantic', '-Werror', '-I', PORTABLE,
        os.path.join(TOP, 'tests/support/c/wrapper.cpp'), path('gcc.o'), '-o', path('wrapper')) or fault_of(path('wrapper'))


@functools.cache
def tester_fault():
    """Builds the tester over that object. Returns what failed."""
    folder = os.path.join(TOP, 'tools/conformance')
    return link('tester', *(os.path.join(folder, name) for name in sorted(os.listdir(folder)) if name.endswith('.c')))


def is_tested(end):
    """The tester over the portable library finds nothing wrong with an end of it."""
    return tester_fault() or fault_of(path('tester'), '--self', end, '20000')


def is_found(wrong):
    """A wrong translator: its C does not compile or gives other results."""
    folder = path('wrong')
    shutil.rmtree(folder, ignore_errors=True)
    changed(TRANSLATOR, folder, wrong)
    done = run(sys.executable, os.path.join(folder, 'translate'), MODULE, os.path.join(TOP, 'include/fio2070.h'), folder)
    if done.returncode:
        return 'it was not run: ' + done.stderr
    if build(QUICKEST, ['-O0', '-w'], 'wrong.run', folder):
        return 'it does not compile'
    return None if run('prlimit', '--cpu=20', path('wrong.run'), *SHORT).stdout != wanted else 'the comparison is the same'


def wrong_translators():
    for name, wrong in WRONG if check.whole('wrong translators') else ():
        if check.given.every or wrong.usual:
            check.fault('wrong: ' + name, is_found, wrong)


done = run('make', '-s', '-C', TOP, 'portable', 'libfio2070.a')
check.holds('make portable', done.returncode == 0, done.stderr)
fault = fault_of('gcc', '-O1', '-I', os.path.join(TOP, 'include'), *CALLS, os.path.join(TOP, 'libfio2070.a'), '-o', path('native'))
check.holds('the comparison with the library for x86-64', not fault, fault)
if done.returncode or fault:
    check.end()
expected, wanted = (run(path('native'), *words).stdout for words in (RUN, SHORT))
check.fault('a call that the module does not export is refused', refuses,
            lambda text: text.replace('uint32_t fio2070_version', 'uint32_t fio2070_absent(void);\nuint32_t fio2070_version'),
            'the module does not export fio2070_absent')
check.fault('a call that the header does not declare is refused', refuses,
            lambda text: text.replace('uint32_t fio2070_version(void);', ''), 'the header does not declare fio2070_version')
for compiler in ('gcc', 'clang'):
    if not shutil.which(compiler):
        check.skip('by ' + compiler, 'no %s here' % compiler)
        continue
    if compiler != 'gcc' and not check.whole('by ' + compiler):
        continue
    check.fault('no warning by ' + compiler, object_fault, compiler)
    check.fault('alone by ' + compiler, is_alone, compiler)
    check.fault('all calls by ' + compiler, lambda by: build(by, ['-O1', *(FAULTS.get(by, []) if check.given.all else [])], by) or differs([path(by)]), compiler)
check.fault('no line is too long for C99', long_lines)
analysers.rows(check, PORTABLE)
for compiler, standard in (('gcc', 'c89'), ('g++', 'c++98')):
    if shutil.which(compiler):
        check.fault('refused: ' + standard, is_taken, compiler, standard)
check.fault('the rows of its calls', has_rows)
check.fault('the decoder of the examples', shows)
check.fault('the poller of the examples', polls)
if shutil.which('g++'):
    check.fault('the header for C++', wraps)
else:
    check.skip('the header for C++', 'no g++ here')
for end in ('module', 'cpu'):
    check.fault('the tester: ' + end, is_tested, end)
others()
cortex_rows()
if not check.whole('the archive for aarch64'):
    pass
elif shutil.which('aarch64-linux-gnu-gcc') and shutil.which('qemu-aarch64'):
    check.fault('the archive for aarch64', archive_for_aarch64)
else:
    check.skip('the archive for aarch64', 'it runs with the Debian packages gcc-aarch64-linux-gnu and qemu-user')
wrong_translators()
check.end()
