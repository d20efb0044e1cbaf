"""Tables of inputs of the program, and what it should write for each."""

import functools
import os
import shutil
import subprocess

TOP = os.path.dirname(os.path.dirname(os.path.dirname(os.path.realpath(__file__))))

# The most octets of an input.
MOST_OCTETS = 1_048_576

# The most entries that may wait in a module with the limits that a script gives it.
MOST_WAITING = 8_192


def lines_that_fit(line, above=''):
    """How many such lines an input may have after this text."""
    return (MOST_OCTETS - len(above)) // len(line)


# Whether the Rattle kit is installed, without which nothing is proved and built of the sources.
CAN_PROVE = shutil.which('rt') is not None


@functools.cache
def _chosen(*words):
    """The path that packaging/program prints, and its status."""
    done = subprocess.run([os.path.join(TOP, 'packaging', 'program'), *words], stdout=subprocess.PIPE, check=False)
    return done.stdout.decode().rstrip('\n'), done.returncode


def program():
    """The path of the program of these sources, which is proved first if need be; where none runs, that of one that a compiler makes."""
    return (_chosen('--proved') if can_simulate() else _chosen())[0]


def program_of(tool):
    """The path of the program, or of the one that FIO2070_PROGRAM names, which has no `simulate`."""
    named = os.environ.get('FIO2070_PROGRAM')
    return named if named and tool != 'simulate' else program()


def can_simulate():
    """Whether the program is a proved one: what a compiler makes of dist/ has no `simulate`."""
    return _chosen('--proved')[1] == 0


def output_of(tool, text):
    """What the program writes for an input, and its exit status."""
    done = subprocess.run([program_of(tool), tool], input=text.encode('latin-1'),
                          stdout=subprocess.PIPE, timeout=900)
    return done.stdout.decode('latin-1'), done.returncode


def in_short(text):
    """A text in the form that the name of a row has: its first characters."""
    return repr(text if len(text) <= 70 else text[:70] + '..')


def row(check, name, tool, text, expected, status):
    """A row of a check: the tool writes the expected text for this input, and ends with the status."""
    if check.wants(name):
        check.equal(name, '%sstatus %d' % (expected, status), '%sstatus %d' % output_of(tool, text))
