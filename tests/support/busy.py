"""Runs every check of `./test`, or those that are named, again and again on two processors, beside loops that keep these busy:
`python3 -B tests/support/busy.py [--runs 5] [--loops 8] [--all] [--timed | PART..]`. A row that fails there is decided by a clock. It prints
each row that failed with its part, the time and the processor time of each part, and last `N runs, M rows failed`; and writes all this
into out/busy as it goes."""

import argparse
import contextlib
import os
import signal
import subprocess
import sys
import time

sys.path.insert(0, os.path.dirname(os.path.dirname(os.path.realpath(__file__))))

from support.gate.parts import TOP, checks
from support.gate.runs import Part, Runs

RECORD = os.path.join(TOP, 'out', 'busy')
# The parts that work with time: with pauses, lines, browsers, processes that are ended.
TIMED = ('firmware', 'fiolog-live', 'outputs', 'wire', 'page', 'endurance', 'fiolog-many', 'conformance')


class Record:
    """The report of such a run: each part has one line, and those of its rows that failed."""

    def __init__(self):
        self.failed = 0
        os.makedirs(os.path.dirname(RECORD), exist_ok=True)
        self.file = open(RECORD, 'w', encoding='utf-8')

    def say(self, text):
        for out in sys.stdout, self.file:
            print(text, file=out, flush=True)

    def end_of(self, part, _):
        self.failed += part.failed
        self.say('%s: %d passed, %d failed, %d s, %d s of a processor' % (part.name, part.passed, part.failed, part.seconds, part.used))
        for name, said, _ in part.faults:
            self.say('FAILED %s\n%s' % (name, said))


@contextlib.contextmanager
def loops(number):
    """So many busy loops, each in a session of its own: some kernels share a processor between sessions."""
    running = [subprocess.Popen(['sh', '-c', 'while :; do :; done'], start_new_session=True) for _ in range(number)]
    try:
        yield
    finally:
        for one in running:
            one.kill()
            one.wait()


def main():
    parser = argparse.ArgumentParser(description=__doc__)
    parser.add_argument('part', nargs='*')
    parser.add_argument('--timed', action='store_true', help='those that work with time')
    parser.add_argument('--runs', type=int, default=5)
    parser.add_argument('--loops', type=int, default=8)
    parser.add_argument('--all', action='store_true', help='the whole form of each part')
    given = parser.parse_args()
    os.sched_setaffinity(0, sorted(os.sched_getaffinity(0))[:2])
    report, paths = Record(), checks()
    parts = given.part or (TIMED if given.timed else list(paths))
    runs = Runs(report)

    def end(number, _):
        for process in runs.running:
            os.killpg(process, number)
        sys.exit(128 + number)
    for number in (signal.SIGINT, signal.SIGTERM, signal.SIGHUP):
        signal.signal(number, end)
    with loops(given.loops):
        for number in range(given.runs):
            begun = time.monotonic()
            for name in parts:
                runs.run(Part(name, [paths[name], *['--all'] * given.all]))
            report.say('run %d of %d: %d s' % (number + 1, given.runs, time.monotonic() - begun))
    report.say('%d runs, %d rows failed' % (given.runs, report.failed))
    return 1 if report.failed else 0


if __name__ == '__main__':
    sys.exit(main())
