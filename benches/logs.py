"""`fiolog` on long logs, side by side with a plain C program that reads the same log.

`logs/plain.c` reads a log line by line, makes octets of the digits and counts frames by type; `logs/library.c` reads it by
libfio2070. The logs are of a link in use: the transcript of `workloads.used_link`, and the same frames as a driver dates them."""

import itertools
import os
import random
import re
import resource
import shlex
import shutil
import statistics
import sys
from datetime import datetime, timedelta
from pathlib import Path

import workloads
from programs import TOP, succeed

TEXTS = Path(__file__).resolve().parent / 'logs'
LINES, ROUNDS = 1_000_000, 3
# Instructions are those of the lines that the longer of two logs has more, so that no start counts. Those of Python are not
# counted: its start alone takes as many as 5,000 lines.
COUNTED = 10_000, 20_000
BEGIN = datetime(2026, 3, 1, 7)
PERIOD, ANSWERED = timedelta(milliseconds=10), timedelta(microseconds=730)


def transcript(count):
    """The first lines of the transcript."""
    return itertools.islice(workloads.used_link(random.Random(2070)), count)


def dated(count):
    """The same frames, each with its time and the word for its direction."""
    for number, line in enumerate(transcript(count)):
        is_answer = line[0] == '<'
        time = BEGIN + number // 2 * PERIOD + ANSWERED * is_answer
        yield f'{time.isoformat(" ", "microseconds")} {"RX" if is_answer else "TX"} {bytes.fromhex(line[2:]).hex(" ")}'


LOGS = {'transcript': transcript, 'dated log': dated}


def keep(folder, name, count):
    """A file with the first lines of a log."""
    path = folder / f'{name.replace(" ", "-")}-{count}.log'
    with path.open('w', encoding='ascii') as file:
        file.writelines(line + '\n' for line in LOGS[name](count))
    return path


def build(folder):
    """The programs to compare, each as the words that start it, and the library by which two of them read."""
    succeed(['make', '-s', '-C', TOP, 'library', f'OUT={folder}'])
    compiler = [*shlex.split(os.environ.get('CC') or 'cc'), '-O2', '-I', TOP / 'include']
    plain, reading = folder / 'plain-log', folder / 'library-log'
    succeed([*compiler, TEXTS / 'plain.c', '-o', plain])
    succeed([*compiler, TEXTS / 'library.c', folder / 'libfio2070.a', '-o', reading])
    os.environ['FIO2070_LIBRARY'] = str(folder / 'libfio2070.so')
    fiolog = [sys.executable, '-B', TOP / 'tools/fiolog']
    return {'plain C': [plain], 'the library reads': [reading], '.. and checks': [reading, 'check'],
            **{f'`fiolog {word}`': [*fiolog, word] for word in ('check', 'stats', 'decode')}}


def used(bench, words, path):
    """The milliseconds of a processor that a run takes, which do not depend on what else the machine does."""
    before = resource.getrusage(resource.RUSAGE_CHILDREN)
    succeed([bench.runner, path, 1, *words])
    after = resource.getrusage(resource.RUSAGE_CHILDREN)
    return 1000 * (after.ru_utime + after.ru_stime - before.ru_utime - before.ru_stime)


def milliseconds(bench, programs, path):
    """The median of each program's times of a processor; runs alternate."""
    runs = [[used(bench, words, path) for words in programs] for _ in range(ROUNDS)]
    return [statistics.median(times) for times in zip(*runs)]


def instructions(bench, words, path):
    """The instructions of a run."""
    with path.open() as log:
        succeed(['valgrind', '--tool=callgrind', f'--callgrind-out-file={bench.notes}', *words], stdin=log)
    return int(re.search(r'^(?:summary|totals): (\d+)', bench.notes.read_text(), re.M).group(1))


def of_a_line(bench, programs, paths):
    """The instructions of a line, of each program in C."""
    counts = []
    for words in programs:
        short, long = (None if words[0] == sys.executable else instructions(bench, words, path) for path in paths)
        counts.append(short and (long - short) / (COUNTED[1] - COUNTED[0]))
    return counts


def compare(bench):
    """For each log: for each program its milliseconds, and its instructions of a line if there is valgrind."""
    programs = build(bench.folder)
    for name in LOGS:
        times = milliseconds(bench, programs.values(), keep(bench.folder, name, LINES))
        counts = [None] * len(times)
        if shutil.which('valgrind'):
            counts = of_a_line(bench, programs.values(), [keep(bench.folder, name, count) for count in COUNTED])
        yield name, dict(zip(programs, zip(times, counts)))
