"""Chosen rows: with a word after `-k` that is in no row's name, a check fails and says so, in each of the languages that checks
are written in."""

import os
import subprocess

from support.tables import CAN_PROVE, TOP

# Of each reader of `-k` one command that reads it: that of Python, that of the shell, that of the wrong bodies.
READERS = ['tests/shows.py', 'tests/examples.sh'] + (['wrong-bodies/try'] if CAN_PROVE else [])

# No row has it in its name.
WORD = 'no-such-row'


def rows(check):
    """Runs a check of each kind with that word."""
    for reader in READERS:
        name = 'a word that no row has: %s' % reader
        if check.wants(name):
            done = subprocess.run([os.path.join(TOP, reader), '-k', WORD], stdout=subprocess.PIPE, encoding='utf-8')
            said = done.stdout.splitlines()
            check.equal(name, (1, True, '0 passed, 0 failed'), (done.returncode, WORD in said[0], said[-1]))
