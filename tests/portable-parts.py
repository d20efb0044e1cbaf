#!/usr/bin/env -S python3 -B
"""The portable library without its reader of logs, and what a program takes that calls a part of it: the macro FIO2070_NO_LOG, by
several compilers; what linkers leave out; CMake; a processor whose size_t has 16 bits, under simavr. With `--all` also the
figures of docs/FIRMWARE.md and tools/portable/README.md, measured again on a Cortex-M4. Without the kit it tests dist/. Last
line: `N passed, M failed`."""

import functools
import os
import re
import shutil

from support import cortex
from support.check import Check
from support.figures import differ
from support.room import fault_of, path, room, run, written
from support.tables import TOP

STRICT = ['-Wall', '-Wextra', '-Wpedantic', '-Wconversion', '-Werror']
SECTIONS = ['-Os', '-ffunction-sections', '-fdata-sections']
NO_LOG = '-DFIO2070_NO_LOG'
SMALL = os.path.join(TOP, 'tests/support/c/small.c')
# A module that is started, scanned and asked, and nothing else of the library.
MODULE = '''#include <fio2070.h>
static struct fio2070_module device;
int main(void) {
    const struct fio2070_limits limits = FIO2070_STANDARD_LIMITS;
    uint8_t poll[2] = {54, 0}, answer[FIO2070_LONGEST_FRAME];
    if (fio2070_module_start(&device, 2, limits) != FIO2070_STARTED) return 1;
    fio2070_module_scan(&device, 5);
    return fio2070_module_receive(&device, poll, 2, answer, sizeof answer) != 8;
}
'''
# The same, and a text.
TEXT = MODULE.replace('return 1;', 'return (int)fio2070_rule_text(1, (char *)poll, 2);')
PROJECT = '''cmake_minimum_required(VERSION 3.13)
project(part C)
add_subdirectory(%s fio2070)
add_executable(part module.c)
target_link_libraries(part fio2070::fio2070)
'''
# The most octets of code of such a module, on x86-64: without sections it is more than ten times as much.
MOST_CODE = 20_000

check = Check()


@functools.cache
def object_of(compiler, *options):
    """Compiles the library, once, without a warning. Returns the object."""
    made = path('%s%d.o' % (compiler, len(options)))
    built(compiler, *STRICT, *options, '-c', os.path.join(library, 'fio2070.c'), '-o', made)
    return made


def built(compiler, *words):
    fault = fault_of(compiler, *([] if compiler == 'g++' else ['-std=c99']), *SECTIONS, *words)
    if fault:
        raise cortex.Failed(fault)


def program(name, source, *options):
    """Links a program with the library, without the parts that it does not call."""
    built('gcc', *options, '-I', library, source, object_of('gcc', *options), '-Wl,--gc-sections', '-o', path(name))
    return path(name)


def is_left_out(compiler):
    """Without the reader the object has none of its calls, needs three functions, and has no data that is written."""
    names = run('nm', object_of(compiler, NO_LOG)).stdout
    return [line for line in names.splitlines()
            if re.search(r' [dDbBC] |fio2070_log_|proved_log_|fio_log_', line) or re.search(r' U (?!mem(cpy|move|set)$)', line)]


def small_text(*options):
    """What tests/support/c/small.c writes over the library with or without its reader."""
    return run(program('small%d' % len(options), SMALL, *options)).stdout


def tables_of(name, text):
    """The read-only tables in a program that runs."""
    made = program(name, written(name + '.c', text))
    return fault_of(made) or re.findall(r'table_\d+', run('nm', made).stdout)


def code_of(made):
    return int(run('size', made).stdout.splitlines()[1].split()[0])


def module_fault():
    """A module alone has no table, and a small part of the code; a text has the one table that has no word of the reader."""
    none, one = tables_of('module', MODULE), tables_of('text', TEXT)
    with open(path('text'), 'rb') as file:
        words = re.findall(b'incoming|received|syslogd', file.read())
    code = code_of(path('module'))
    return None if none == [] and len(one) == 1 and not words and code < MOST_CODE else (none, one, words, code)


def cmake_fault(*options):
    """A project adds dist/, and its module has the parts that it calls."""
    shutil.rmtree(path('built'), ignore_errors=True)
    written('module.c', MODULE)
    written('CMakeLists.txt', PROJECT % os.path.join(TOP, 'dist'))
    fault = fault_of('cmake', '-S', room, '-B', path('built'), '-DCMAKE_BUILD_TYPE=MinSizeRel', *options) or fault_of(
        'cmake', '--build', path('built')) or fault_of(path('built/part'))
    if fault:
        return fault
    code, has_log = code_of(path('built/part')), 'fio2070_log_read' in run('nm', path('built/fio2070/libfio2070.a')).stdout
    return None if code < MOST_CODE and has_log == (not options) else (code, has_log)


def on_avr():
    """On an ATmega2560 the same program writes what it writes here, and there is not a warning."""
    options = [NO_LOG, '-mmcu=atmega2560']
    built('avr-gcc', *STRICT, *options, '-I', library, '-Wl,--gc-sections', SMALL, object_of('avr-gcc', *options), '-o', path('avr.elf'))
    done = run('simavr', '-m', 'atmega2560', '-f', '16000000', path('avr.elf'))
    got = re.findall(r'((?:frame|link) [0-9a-f]{8})', done.stdout + done.stderr)
    return None if got == small_text(NO_LOG).splitlines() and len(got) > 50 else got[-3:] or done.stderr[-300:]


def cpp_fault():
    """The header for C++ without the reader."""
    source = written('part.cpp', '#include <fio2070.hpp>\nint main() { return ::fio2070_version() != FIO2070_VERSION; }\n')
    built('g++', '-std=c++17', '-Wall', '-Wextra', '-Wpedantic', '-Werror', NO_LOG, '-I', library, source, object_of('gcc', NO_LOG),
          '-o', path('cpp'))
    return fault_of(path('cpp'))


def needs(row, commands, action, *words):
    """A row that is skipped if a command is missing."""
    missing = [command for command in commands if not shutil.which(command)]
    if missing:
        check.skip(row, 'no %s here' % missing[0])
    else:
        check.fault(row, action, *words)


def main():
    for compiler in ('gcc', 'clang'):
        needs('without the reader of logs, by ' + compiler, [compiler], is_left_out, compiler)
    check.equal('the same answers without the reader of logs', small_text(), small_text(NO_LOG))
    needs('C++ without the reader of logs', ['g++'], cpp_fault)
    check.fault('a module takes its own part', module_fault)
    needs('CMake leaves out what is not called', ['cmake'], cmake_fault)
    needs('CMake without the reader of logs', ['cmake'], cmake_fault, '-DFIO2070_NO_LOG=ON')
    needs('a size_t of 16 bits', ['avr-gcc', 'simavr'], on_avr)
    if not check.whole('figures of the pages'):
        return
    if cortex.missing():
        check.skip('figures of the pages', cortex.missing())
        return
    check.fault('figures of the pages', lambda: differ(
        [cortex.measured(room, options, library) for options in (['-Os'], ['-O2', '-DFIO2070_FAST'])]))


try:
    library = cortex.library()
    main()
except cortex.Failed as why:
    check.holds('building', False, str(why))
check.end()
