"""The shared library of a checkout that has none yet: `fiolog` makes it from dist/, once, as `./fio2070` makes its program."""

import contextlib
import os
import shutil
import subprocess
import sys
import time

from .terminal import say

TOP = os.path.normpath(os.path.join(os.path.dirname(os.path.abspath(__file__)), '..', '..', '..'))
NAME = {'win32': 'fio2070.dll', 'darwin': 'libfio2070.1.dylib'}.get(sys.platform, 'libfio2070.so.1')
SOURCES = [os.path.join(TOP, 'dist', name) for name in ('fio2070.c', 'fio2070.h')]


def load():
    """Loads the library. If a checkout has none, it makes one, in the folder `out` of the checkout or of FIO2070_OUT. If that cannot be
    done here, an OSError says in one line what to do."""
    from fio2070._library import library
    try:
        library.load()
    except OSError as fault:
        os.environ['FIO2070_LIBRARY'] = _made(fault)
        library.load()


def _made(fault):
    """The path of the library that is made of a checkout. If that cannot be done here, the fault is raised."""
    folder = os.path.join(os.path.abspath(os.environ.get('FIO2070_OUT') or TOP), 'out', 'fiolog')
    path, compiler = os.path.join(folder, NAME), os.environ.get('CC') or 'cc'
    if os.environ.get('FIO2070_LIBRARY') or os.path.exists(os.path.join(TOP, NAME)) or not os.path.exists(os.path.join(TOP, 'Makefile')):
        raise fault
    is_new = os.path.exists(path) and all(os.path.getmtime(path) >= os.path.getmtime(source) for source in SOURCES)
    if not is_new and not (shutil.which('make') and shutil.which(compiler.split()[0]) and _is_made(folder, path, compiler)):
        raise fault
    return path


def _is_made(folder, path, compiler):
    """Makes the library from dist/, and says so; returns whether that could be done."""
    begun = time.monotonic()
    say('there is no library yet: making it from dist/fio2070.c, once ..', end='')
    # Paths of make have no blanks; those from the top on have none of the checkout's own.
    words = ['OUT=' + os.path.relpath(folder, TOP), 'CC=' + compiler, os.path.relpath(path, TOP)]
    done = subprocess.run(['make', '-s', '-C', TOP, 'kit=', *words], stdin=subprocess.DEVNULL, stdout=subprocess.DEVNULL,
                          stderr=subprocess.PIPE, check=False, env={**os.environ, 'MAKEFLAGS': ''})
    said = done.stderr.decode(errors='replace').partition('\n')[0]
    say('make failed: ' + said if done.returncode else '%d s%s' % (time.monotonic() - begun, said and '; ' + said), name='')
    return not done.returncode


def versions():
    """The lines that say which program and which library this is, and the path of the library."""
    import fio2070
    from fio2070 import _library
    from fio2070.constants import VERSION
    load()

    def words(number):
        return '%d.%d.%d' % (number // 10000, number // 100 % 100, number % 100)
    return 'fiolog ' + words(VERSION), 'libfio2070 %s %s' % (words(fio2070.version()), _path(_library.library.loaded._name))


def _path(name):
    """The path of the library that was loaded by this name, if the system says which one it took."""
    if os.path.dirname(name):
        return os.path.abspath(name)
    with contextlib.suppress(OSError), open('/proc/self/maps', encoding='utf-8', errors='replace') as maps:
        for line in maps:
            if line.rstrip().endswith('/' + name):
                return line[line.index('/'):].rstrip()
    return name
