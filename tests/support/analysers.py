"""What analysers say of the portable library: a kind of warning fails a row unless `argued`, beside this file, has a reason for
it. `python3 -B tests/support/analysers.py FOLDER [--misra]` prints what each finds, without what is argued away, and
then fails if there is something; with `--misra` how often the addon of cppcheck finds a rule of MISRA C:2012 broken."""

import collections
import os
import re
import shutil
import subprocess
import sys
import tempfile

ARGUED = os.path.join(os.path.dirname(os.path.realpath(__file__)), 'argued')
# What gcc is for in the two that read the file by themselves, and a third of the file, since all of it is by the same rules.
PARTLY = ['-D__GNUC__=12', '-D__x86_64__', '-D__BYTE_ORDER__=1234', '-D__ORDER_LITTLE_ENDIAN__=1234', '-DFIO2070_NO_LOG']
GCC = ['Wall', 'Wextra', 'Wpedantic', 'Wconversion', 'Wsign-conversion', 'Wshadow', 'Wcast-align=strict', 'Wcast-qual', 'Wundef',
       'Wstrict-prototypes', 'Wmissing-prototypes', 'Wlogical-op', 'Wduplicated-cond', 'Wnull-dereference', 'Wswitch-default',
       'Wredundant-decls', 'Wbad-function-cast', 'Wvla', 'Wjump-misses-init', 'Wunused-macros']
CHECKS = '-checks=-*,bugprone-*,cert-*,misc-*,performance-*,portability-*'
# Each tool: its command after its name, and the kind in what it writes.
TOOLS = {
    'gcc': (['-std=c99', '-O1', *('-' + it for it in GCC), '-I', '{0}', '-c', '{0}/fio2070.c', '-o', '/dev/null'], r'\[(-W[\w=+-]+)\]'),
    'clang': (['-std=c99', '-Weverything', '-fsyntax-only', '-I', '{0}', '{0}/fio2070.c'], r'\[(-W[\w=+-]+)\]'),
    'cppcheck': (['--enable=warning,portability,performance,style', '--std=c99', '-q', '--max-configs=1', *PARTLY, '--template={{id}}:',
                  '-I', '{0}', '{0}/fio2070.c'], r'^(\w+):'),
    'clang-tidy': (['--quiet', CHECKS, '--header-filter=fio2070', '{0}/fio2070.c', '--', '-std=c99', '-DFIO2070_NO_LOG', '-I', '{0}'],
                   r'\[([\w.,-]+)\]$')}
MISRA = '/usr/lib/x86_64-linux-gnu/cppcheck/addons/misra.py'


def argued():
    """The kinds that are argued away, with their tools."""
    with open(ARGUED, encoding='utf-8') as file:
        return {tuple(line.split(':')[0].split()) for line in file if not line.startswith('#')}


def kinds(tool, folder):
    """How often a tool writes each kind of warning. A tool that fails has written an error, which is a kind."""
    words, form = TOOLS[tool]
    done = subprocess.run([tool, *(word.format(folder) for word in words)], capture_output=True, text=True, errors='replace', check=False)
    found = collections.Counter(re.findall(form, done.stdout + done.stderr, re.M))
    if done.returncode and not found:
        found['status %d: %s' % (done.returncode, done.stderr[-300:])] += 1
    return found


def new_kinds(tool, folder):
    """The kinds that nobody has argued away."""
    known = argued()
    return [(kind, count) for kind, count in kinds(tool, folder).items() if (tool, kind) not in known]


def rows(check, folder):
    """A row for each tool."""
    for tool in TOOLS if check.whole('warnings that are not argued away') else ():
        row = 'no new warning by ' + tool
        if shutil.which(tool):
            check.fault(row, new_kinds, tool, folder)
        else:
            check.skip(row, 'no %s here (the Debian package of this name)' % tool)


def misra(folder):
    """How often each rule of MISRA C:2012 is broken, as the addon of cppcheck says."""
    with tempfile.TemporaryDirectory() as room:
        for name in ('fio2070.c', 'fio2070.h'):
            shutil.copy(os.path.join(folder, name), room)
        source = os.path.join(room, 'fio2070.c')
        subprocess.run(['cppcheck', '--dump', '-q', '--std=c99', *PARTLY, '-I', room, source], stderr=subprocess.DEVNULL, check=True)
        said = subprocess.run([sys.executable, MISRA, '--no-summary', source + '.dump'], capture_output=True, text=True, check=False)
    return collections.Counter(re.findall(r'misra-c2012-(\d+\.\d+)', said.stdout + said.stderr))


if __name__ == '__main__':
    if '--misra' in sys.argv:
        for rule, count in sorted(misra(sys.argv[1]).items(), key=lambda it: [int(n) for n in it[0].split('.')]):
            print(rule, count)
        sys.exit()
    found = {tool: new_kinds(tool, sys.argv[1]) if shutil.which(tool) else None for tool in TOOLS}
    for tool, new in found.items():
        print('%s: %s' % (tool, 'is not here' if new is None else new or 'no new warning'))
    sys.exit(any(found.values()))
