"""Work on many files in processes of their own: a fault, or a process that dies, costs its own file alone."""

import contextlib
import multiprocessing
import multiprocessing.connection
import os
import signal
import sys
import threading
from concurrent.futures import BrokenExecutor, ProcessPoolExecutor, as_completed

from . import signals, terminal

# How many processes are begun at most; Windows waits for no more than 61.
MOST_JOBS = 61 if sys.platform == 'win32' else 256
DIED = 'the process that read it died'
# The errors of a system that lets no process begin.
_NO_PROCESS = OSError, NotImplementedError, ImportError


def jobs_of(wanted, count):
    """How many processes read `count` files: one for each processor, or as many as are wanted."""
    jobs = min(wanted or os.cpu_count() or 1, count)
    if jobs > MOST_JOBS:
        terminal.say('--jobs: %d at a time are the most' % MOST_JOBS)
    return max(1, min(jobs, MOST_JOBS))


def results(work, names, jobs, seen):
    """Returns what the work made of each name, by its index, which `seen` is called with as it comes. Work that died is words. Of work that
    Ctrl-C ended there is none."""
    done = {}

    def add(index, found):
        done[index] = found
        seen(found)
    try:
        _together(work, names, [index for index, name in enumerate(names) if name != '-'], jobs, add)
        for index, name in enumerate(names):
            if index in done:
                continue
            # Its process died, or that of another, or the system lets none begin.
            is_alone = name != '-' and _together(work, names, [index], 1, add)
            if index not in done:
                add(index, DIED if is_alone else work(name))
    except KeyboardInterrupt:
        _end_all()
    return done


def _mask(how):
    """Holds back, or lets come, the signals that end a command, where a system can."""
    if hasattr(signal, 'pthread_sigmask'):
        signal.pthread_sigmask(how, signals.ending())


@contextlib.contextmanager
def _held():
    """No signal comes meanwhile: one that came while a process is begun would be lost, or be reported by that process."""
    _mask(signal.SIG_BLOCK)
    try:
        yield
    finally:
        _mask(signal.SIG_UNBLOCK)


def _begin():
    """Ctrl-C at a terminal is for all processes of a command; the first of them ends the others, and they end with it."""
    signals.end_at_once()
    signal.signal(signal.SIGINT, signal.SIG_IGN)
    _mask(signal.SIG_UNBLOCK)
    threading.Thread(target=_end_with_first, daemon=True).start()


def _end_with_first():
    """Ends this process once the first one has ended, in whatever way."""
    multiprocessing.connection.wait([multiprocessing.parent_process().sentinel])
    os._exit(1)


def _end_all():
    for child in multiprocessing.active_children():
        child.terminate()


@contextlib.contextmanager
def _pool(jobs):
    """So many processes."""
    with ProcessPoolExecutor(jobs, initializer=_begin) as pool:
        try:
            yield pool
        except BaseException:
            _end_all()      # else the pool waits for them
            raise


def _together(work, names, indexes, jobs, add):
    """Does the work in several processes, as far as none of them dies; returns whether the system lets them begin."""
    try:
        with _pool(jobs) as pool:
            with _held():
                futures = {pool.submit(work, names[index]): index for index in indexes}
            for future in as_completed(futures):
                add(futures[future], future.result())
    except BrokenExecutor:
        pass
    except _NO_PROCESS:
        return False
    return True
