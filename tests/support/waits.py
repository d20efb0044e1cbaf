"""Waiting for what other processes do: for an event, however long that takes on a busy machine."""

import os
import time
from pathlib import Path

# Seconds after which what has not come never comes.
LONGEST = 300
# To what `slowness` counts, and the seconds of a processor that this takes on the machine for which the bounds of checks are, if nothing
# else runs there.
COUNT, COUNT_S = 3_000_000, 0.5


def until(holds):
    """Waits for a condition. Returns its value, which is false only if it never comes."""
    end = time.monotonic() + LONGEST
    while not (value := holds()) and time.monotonic() < end:
        time.sleep(0.01)
    return value


def used():
    """The seconds of a processor of all processes that this one began and that have ended."""
    times = os.times()
    return times.children_user + times.children_system


def slowness():
    """How many times as long a piece of work takes here and now, in seconds of a processor, as where the bounds of checks were set; 1 at
    least. They depend on the machine, and on what shares its cores and caches."""
    begun, total = time.process_time(), 0
    for number in range(COUNT):
        total = (total * 31 + number) & 0xffffffff
    return max(1.0, (time.process_time() - begun) / COUNT_S)


def is_gone(number):
    """Whether a process has ended."""
    return not Path('/proc/%d' % number).exists()


def sleeps(number):
    """Whether all threads of a process wait for something, or it has ended: it has done all that there was to do."""
    try:
        return all(path.read_text().rpartition(')')[2].split()[0] in 'SZ' for path in Path('/proc/%d/task' % number).glob('*/stat'))
    except OSError:
        return True
