"""The portable library on a Cortex-M4 without an operating system: qemu-system-arm's board mps2-an386, of which 256 KB of
flash and 64 KB of RAM are used."""

import functools
import os
import re
import shutil
import signal
import subprocess

from support.tables import CAN_PROVE, TOP
from support.waits import LONGEST

SOURCES, DIST = os.path.join(TOP, 'tests/support/c'), os.path.join(TOP, 'dist')
FLAGS = ['-std=c99', '-mcpu=cortex-m4', '-mthumb', '-ffunction-sections', '-fdata-sections']
COMPILER, QEMU = 'arm-none-eabi-gcc', 'qemu-system-arm'
# The parts of the library, each with the names of its calls; `all` has every call of the header but those on logs, and `with
# logs` has these too.
PARTS = {'module': r'sized_module_', 'poller': r'poller_',
         'codec': r'(en|de)code_|command_items|read_block|block_entries|widen|fault_text', 'all': '(?!log_)',
         'with logs': ''}


class Failed(Exception):
    """What a command wrote if it failed."""


def missing():
    """The command that is not installed, and its package; nothing if all are installed."""
    for command, package in ((COMPILER, 'gcc-arm-none-eabi, libnewlib-arm-none-eabi'), (QEMU, 'qemu-system-arm')):
        if not shutil.which(command):
            return 'no %s here (Debian packages %s)' % (command, package)
    return None


def run(*words):
    """What a command writes. If it takes too long, it is ended with all that it began."""
    with subprocess.Popen(words, stdin=subprocess.DEVNULL, stdout=subprocess.PIPE, stderr=subprocess.PIPE, text=True, start_new_session=True) as process:
        try:
            out, err = process.communicate(timeout=3 * LONGEST)
        except BaseException:
            os.killpg(process.pid, signal.SIGKILL)
            raise
    if process.returncode:
        raise Failed('%s: status %d %s' % (words[0], process.returncode, err[-500:]))
    return out


@functools.cache
def library():
    """The folder of the portable library: without the kit dist/, else what `make portable` makes of the sources."""
    if not CAN_PROVE:
        return DIST
    run('make', '-s', '-C', TOP, 'portable')
    return os.path.join(TOP, 'portable')


@functools.cache
def compiled(folder, library, *options):
    """The portable library as an object in the folder, compiled once."""
    made = os.path.join(folder, 'cortex%s.o' % ''.join(options))
    run(COMPILER, *FLAGS, *options, '-Wall', '-Wextra', '-Wpedantic', '-Wconversion', '-Werror', '-I', library, '-c',
        os.path.join(library, 'fio2070.c'), '-o', made)
    return made


def output_of(folder, options, library, program, words):
    """What a program writes there, given these words. Nanoseconds of its clock are instructions."""
    made, start = os.path.join(folder, 'cortex.elf'), os.path.join(SOURCES, 'cortex_m')
    run(COMPILER, *FLAGS, *options, '-I', library, '--specs=rdimon.specs', '-nostartfiles', '-T',
        os.path.join(start, 'link.ld'), '-Wl,--gc-sections', '-DARGUMENTS=' + ','.join('"%s"' % word for word in words),
        os.path.join(start, 'start.c'), os.path.join(SOURCES, program), compiled(folder, library, *options), '-o', made)
    return run(QEMU, '-M', 'mps2-an386', '-icount', 'shift=0', '-nographic', '-semihosting-config',
               'enable=on,target=native', '-kernel', made)


def code_of(folder, options, library, part):
    """The octets of code and constants that the calls of a part take, without those of the compiler's own library."""
    with open(os.path.join(library, 'fio2070.h'), encoding='utf-8') as file:
        calls = re.findall(r'^(?!static)[\w *]*?\b(fio2070_\w+)\(', file.read(), re.M)
    roots = ['-Wl,-u,' + call for call in calls if re.match('fio2070_(%s)' % PARTS[part], call)]
    made = os.path.join(folder, 'part.elf')
    run(COMPILER, *FLAGS, '-nostdlib', '-Wl,--gc-sections,--unresolved-symbols=ignore-all,-e,0', *roots,
        compiled(folder, library, *options), '-o', made)
    return sum(int(number) for number in run('arm-none-eabi-size', made).splitlines()[1].split()[:2])


def measured(folder, options, library):
    """What is counted of the library with these options: kind -> name -> number."""
    found = {'code': {part: code_of(folder, options, library, part) for part in PARTS}, 'instructions': {}, 'stack': {}}
    for line in output_of(folder, options, library, 'cortex_m/counts.c', ['counts']).splitlines():
        kind, rest = line.split(' ', 1)
        name, number = rest.rsplit(' ', 1)
        found[kind][name] = int(number)
    return found
