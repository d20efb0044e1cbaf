"""What the kit knows about crates: `rtlib`, of which its command `rt` is made."""

import functools
import os
import subprocess
import sys


@functools.cache
def rtlib():
    start = subprocess.run(['rt', 'doc'], stdout=subprocess.PIPE, check=True).stdout.decode().strip()
    sys.path.insert(0, os.path.join(os.path.dirname(start), 'bin'))
    import rtlib as loaded
    return loaded


def crates_of(folder):
    """The crates of a repository, by their names, as `rt` knows them."""
    return {one.name: one for one in rtlib().crates_below(folder)}
