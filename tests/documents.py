#!/usr/bin/env -S python3 -B
"""Runs each command of the blocks marked `console` in the documents, of the examples of the manual page and of those of
`--help`, and compares what it prints.

A line that begins with `$ ` is a command, run by sh at the top of the repository, with `fio2070` on the path; the lines
after it, up to the next command or the end of the block, are what it prints on standard output. A line `...` matches any
lines. A block marked `console NAME` needs the program of the Debian package NAME; if that program is missing, the block is
skipped. Last line: `N passed, M failed`."""

import os
import shutil
import subprocess
import tempfile

from support.check import Check
from support.console import commands, row
from support.pages import documents, text_of
from support.fiolog import LIBRARY
from support.tables import CAN_PROVE, TOP


def is_runnable(check, path, number, line):
    """Whether a line opens a block that needs a program, and the program is installed."""
    needed = line.removeprefix('```console ')
    if needed == line or shutil.which(needed):
        return needed != line
    check.skip('%s:%d' % (path, number), 'no %s here (Debian package %s)' % (needed, needed))
    return False


def block_lines(check, path):
    """The lines in the blocks of a document that show commands, with their numbers."""
    is_page, inside = path.endswith('.1'), False
    for number, line in enumerate(text_of(path).split('\n'), 1):
        if is_page:
            line = line.replace('\\e', '\\').replace('\\-', '-')
        if line == '.EX' or line == '.EE' if is_page else line.startswith('```'):
            inside = not inside and (line in ('.EX', '```console') or is_runnable(check, path, number, line))
        elif inside:
            yield number, line


def example_lines(text):
    """The lines after the line `Example:` of a help text, numbered."""
    return enumerate(line[2:] for line in text.partition('\nExample:\n')[2].splitlines())


def printed(command, folder):
    """What a command prints, with the programs of a folder on the path."""
    path = folder + os.pathsep + os.environ.get('PATH', os.defpath)
    done = subprocess.run(['sh', '-c', command], cwd=TOP, env=dict(os.environ, PATH=path),
                          stdin=subprocess.DEVNULL, stdout=subprocess.PIPE, timeout=900)
    return done.stdout.decode('utf-8', 'replace')


def main():
    check = Check()
    with tempfile.TemporaryDirectory() as folder:
        os.symlink(os.path.join(TOP, 'fio2070'), os.path.join(folder, 'fio2070'))
        found = [(path, commands(block_lines(check, path))) for path in documents()]
        for words in ('fio2070', 'fio2070 show', 'fio2070 simulate', 'fio2070 check', 'fio2070 record'):
            found.append((words + ' --help', commands(example_lines(printed(words + ' --help', folder)))))
        for place, examples in found:
            for number, command, expected in examples:
                name = '%s:%d: %s' % (place, number, command)
                if command.startswith('rt ') and not CAN_PROVE:
                    check.skip(name, 'no rt here (the Rattle kit)')
                elif 'fiolog ' in command and not os.path.exists(LIBRARY):
                    check.skip(name, 'no libfio2070.so here (make library)')
                elif check.wants(name):
                    row(check, name, expected, printed(command, folder))
    check.end()


main()
