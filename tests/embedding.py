#!/usr/bin/env -S python3 -B
"""Goes through docs/EMBEDDING.md as its reader would, on a copy of the libraries: runs each command of its blocks marked
`sh`, and compares what it prints. So its example and the crates are proved, built and run. Last line: `N passed, M failed`."""

import os
import re
import shutil
import subprocess
import tempfile

from support.check import Check
from support.console import row
from support.copies import link_or_copy
from support.tables import TOP

# The document's crates are this one and those that it depends on.
LAST = 'fio_cpu'

BLOCK = re.compile(r'^```sh\n(.*?)^```$', re.M | re.S)


def copy_libraries(folder):
    """The libraries, with what is built of them, and the examples."""
    listed, words = [], [os.path.join(TOP, 'build'), '--order', LAST]
    names = subprocess.run(words, stdout=subprocess.PIPE, check=True).stdout.decode().split()
    with open(os.path.join(TOP, 'crates.txt'), encoding='utf-8') as lines:
        for line in lines:
            name = line.partition(':')[0]
            crate = os.path.join(TOP, 'crates', name)
            if name in names:
                listed.append(line)
                for part in ('src', 'specs', 'proofs', 'out/rlib'):
                    if os.path.isdir(os.path.join(crate, part)):
                        shutil.copytree(os.path.join(crate, part), os.path.join(folder, 'crates', name, part),
                                        copy_function=link_or_copy)
    with open(os.path.join(folder, 'crates.txt'), 'w', encoding='utf-8') as lines:
        lines.writelines(listed)
    shutil.copy(os.path.join(TOP, 'HANDLES'), folder)
    shutil.copytree(os.path.join(TOP, 'examples'), os.path.join(folder, 'examples'))


def run(command, folder):
    """What a command prints, and what else it writes."""
    done = subprocess.run(['sh', '-c', command], cwd=folder, stdin=subprocess.DEVNULL, stdout=subprocess.PIPE,
                          stderr=subprocess.PIPE, timeout=1800)
    return done.stdout.decode('utf-8', 'replace'), done.stderr.decode('utf-8', 'replace')


def commands(text):
    """Each command of a block, with the lines that it should print."""
    found = []
    for line in text.splitlines():
        if line.startswith('$ '):
            found.append((line[2:], []))
        else:
            found[-1][1].append(line)
    return found


def main():
    check = Check()
    with open(os.path.join(TOP, 'docs', 'EMBEDDING.md'), encoding='utf-8') as document:
        blocks = BLOCK.findall(document.read())
    with tempfile.TemporaryDirectory() as folder:
        copy_libraries(folder)
        for block in blocks:
            for command, expected in commands(block):
                # Whichever rows are requested, since later commands need the earlier ones.
                printed, rest = run(command, folder)
                failed = check.failed
                row(check, command, expected, printed)
                if check.failed > failed:
                    print(rest[-4000:])
    check.end()


main()
