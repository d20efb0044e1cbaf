#!/usr/bin/env python3
"""Gives a copy of the sources the libraries below crates, as `rt ci` builds them here: `libraries.py COPY CRATE.. --until FILE`.

Then nothing has to prove them once more; what they contain of proofs is their statements. Each is taken as soon as it exists,
the lowest first, until all do, or FILE says that `rt ci` has ended; what is missing then, the copy proves for itself. `rt ci`
leaves them without the stamp by which `rt` knows a library that is up to date, since others do not fit those above. In the copy
there are no others, so the stamp is written, last of all."""

import argparse
import os
import shutil
import sys
import time

sys.dont_write_bytecode = True
TOP = os.path.dirname(os.path.dirname(os.path.dirname(os.path.realpath(__file__))))
sys.path.insert(0, os.path.join(TOP, 'tests'))

from support.copies import link_or_copy
from support.kit import crates_of


def files_of(crate):
    """The files of a library that `rt ci` has built here, or is just taking from an earlier run, with their sizes: none if
    it is another's."""
    folder = os.path.join(TOP, 'crates', crate.name, 'out', 'rlib')
    try:
        found = {path: os.path.getsize(path) for at, _, names in os.walk(folder)
                 for path in (os.path.join(at, name) for name in names)}
    except FileNotFoundError:
        return {}
    is_whole = os.path.join(folder, crate.name + '.rlib', 'format') in found
    return found if is_whole and os.path.join(folder, 'stamp') not in found else {}


def built(crate):
    """The folder of a library in the copy."""
    return os.path.join(crate.folder, 'out', 'rlib')


def missing(copy, names):
    """The libraries below these crates that the copy does not have yet, the lowest first."""
    crates = crates_of(copy)
    below = {one.name: one for name in names for one in crates[name].below()}
    return [one for one in below.values() if not os.path.exists(os.path.join(built(one), 'stamp'))]


def take(crate):
    """Takes a library, and stamps it."""
    target = built(crate)
    shutil.copytree(os.path.join(TOP, 'crates', crate.name, 'out', 'rlib'), target, copy_function=link_or_copy)
    with open(target + '.stamp', 'w', encoding='utf-8') as stamp:
        stamp.write(crate.stamp())
    os.rename(target + '.stamp', os.path.join(target, 'stamp'))


def main():
    parser = argparse.ArgumentParser(description=__doc__.split('\n', maxsplit=1)[0])
    parser.add_argument('copy', type=os.path.realpath)
    parser.add_argument('crate', nargs='+')
    parser.add_argument('--until', metavar='FILE', required=True)
    given = parser.parse_args()
    left, seen = missing(given.copy, given.crate), {}
    while left:
        is_last = os.path.exists(given.until)
        files = files_of(left[0])
        # A library that is still being written changes.
        if files and files == seen:
            take(left.pop(0))
        elif is_last and not files:
            print('libraries.py: the copy proves %s itself' % ', '.join(one.name for one in left))
            return
        else:
            seen = files
            time.sleep(1)


if __name__ == '__main__':
    main()
