"""Checks the repository.

`./test` checks what a change can break on this machine. It proves the crates that are not as they were proved last, by the list
tests/proved.sums, and those that rest on them, tries the wrong bodies (functions with a planted bug) of crates that changed, and runs
the quick form of each check in tests/. `./test --all` does what a merge waits for: it proves all by `rt ci`, whatever the list says,
tries the wrong bodies of each crate that is not as in the list tests/tried.sums, and runs each check in its whole form; it fails if the
list of what was proved is not that of the tree. `./test --release` does what a release waits for: the same with all wrong bodies, and
with more seeds and cases.

A check is an executable file of tests/, whose last line is `N passed, M failed`. At the end `./test` says what each part cost, what
is left to `--all` or `--release`, what was skipped and why, and what failed and how that is run by itself; its last line gives the
totals, and the status is 1 if something failed.

Without the Rattle kit, and with it if nothing changed since dist/ was made, the checks run on what is made from dist/."""

import argparse
import concurrent.futures
import filecmp
import os
import re
import shlex
import signal
import sys
import tempfile
import threading
import time

sys.path.insert(0, os.path.dirname(os.path.dirname(os.path.dirname(os.path.realpath(__file__)))))

from support.gate import proved
from support.gate.built import ARCHIVE, AT_ONCE, OF_ALL, Built
from support.gate.parts import (BODIES, GATE, LIBRARY, ONLY_ALL, PROOFS, TOP, WITHOUT_LIBRARY, WITH_KIT, WITH_MAKE, checks, costs, has,
                                is_of_these_sources, lacking, names, path_without_kit, write_costs)
from support.gate.report import Report, minutes, told
from support.gate.runs import Part, Runs
from support.gate.spent import watched

LAST = os.path.join(TOP, 'out', 'test-seconds')


def words():
    """What the command line says."""
    parser = argparse.ArgumentParser(prog='./test', usage='./test [--all | --release] [--list] [--write] [--costs] [PART.. [-k WORD]]', description=__doc__,
                                     formatter_class=argparse.RawDescriptionHelpFormatter)
    parser.add_argument('part', nargs='*', metavar='PART', help='these parts alone, one after another; --list names all')
    parser.add_argument('--all', action='store_true', help='all that a merge waits for')
    parser.add_argument('--release', action='store_true', help='all that a release waits for')
    parser.add_argument('-k', metavar='WORD', help='of the parts that are named only the rows whose names have the word')
    parser.add_argument('--list', action='store_true', help='print what would be run, and run nothing')
    parser.add_argument('--write', action='store_true', help='write tests/proved.sums after all crates were proved')
    parser.add_argument('--costs', action='store_true', help='write into tests/costs what the parts cost, and a crate')
    given = parser.parse_args()
    given.all |= given.release
    for name in given.part:
        if name not in names():
            sys.exit(refused('there is no part %s; the options are --all, --release, --list, --write, --costs and -k WORD, the parts:\n%s' % (
                name, '\n'.join('    ' + one for one in names()))))
    if given.k is not None and not given.part:
        sys.exit(refused('-k is for the parts that are named'))
    if given.k is not None and PROOFS in given.part:
        sys.exit(refused('proofs has no rows for -k'))
    return given


def refused(why):
    """Says why the words of the call are not right. Returns the status for that."""
    print('test: ' + why, file=sys.stderr)
    return 2


class Gate:
    """One call of `./test`, with a room for files that it makes."""

    def __init__(self, given, room):
        self.given, self.room, self.has_kit = given, room, has('rt')
        self.costs, self.processors = costs(), len(os.sched_getaffinity(0))
        self.sums, self.environment = proved.sums(), None
        self.differing = proved.differing(self.sums)
        # Whether the checks run on what is made from dist/: without the kit, and with it if dist/ is of these sources.
        self.is_of_dist = not self.has_kit or not (given.all or given.part) and is_of_these_sources()
        # What `--costs` writes beside the costs of the parts.
        self.seen = {}
        self.report = Report(len(self.chosen()))
        self.runs = Runs(self.report)

    def left(self):
        """The parts that are left to `--all`."""
        if self.given.all or self.given.part:
            return []
        return [name for name in names() if name not in self.needing() and (
            name in ONLY_ALL or self.is_of_dist and name in WITH_KIT and name not in (PROOFS, BODIES))]

    def needing(self):
        """The parts that are not run, since they need the kit."""
        return [] if self.has_kit or self.given.part else [name for name in names() if name in WITH_KIT]

    def chosen(self):
        """The names of the parts to run. If all crates are as they were proved, the proofs are not run."""
        if self.given.part:
            return self.given.part
        is_proved = self.is_of_dist and not self.given.all and not self.differing
        return [name for name in [LIBRARY, *names()] if name not in self.left() + self.needing() and not (name == PROOFS and is_proved)]

    def form_words(self):
        """How a check is told its form."""
        return ['--release'] if self.given.release else ['--all'] * self.given.all

    def part(self, name):
        """A part by its name."""
        form, rows = self.form_words(), ['-k', self.given.k] if self.given.k is not None else []
        cost = (self.costs.get(name) or [None, None])[self.given.all] or 0
        if name == PROOFS:
            are_some = self.is_of_dist and not self.given.all and not self.given.part
            return Part(name, [*GATE, *(proved.resting_on(self.differing) if are_some else [])], ['./test', PROOFS])
        if name == BODIES:
            which = [] if rows or self.given.release else ['--changed' if self.given.all or self.given.part else '--edited']
            return Part(name, ['wrong-bodies/try', *which, *rows])
        if name == LIBRARY:
            return self.library()
        if name in WITH_MAKE and lacking():
            return Part(name, ['sh', '-c', 'echo "skipped: all of it: %s"; echo 0 passed, 0 failed' % lacking()], [checks()[name], *form, *rows])
        after = LIBRARY if not self.given.part and name not in WITHOUT_LIBRARY else None
        return Part(name, [checks()[name], *form, *rows], after=after, environment=self.environment, cost=cost)

    def library(self):
        """The part that makes the library of dist/, for which others wait. One that the kit made is removed before."""
        own, made = (os.path.join(TOP, path) for path in (ARCHIVE, 'libfio2070.a'))
        if os.path.exists(own) and os.path.exists(made) and filecmp.cmp(own, made, shallow=False):
            os.remove(made)
        script = 'echo "skipped: the library: %s"' % lacking() if lacking() else 'make -s library'
        return Part(LIBRARY, ['sh', '-c', script + ' && echo 0 passed, 0 failed'], ['make', 'library'], environment=self.environment, cost=1000)

    def say_first(self):
        """Says which crates are as they were proved, how many parts are run, and how long they may take."""
        known, price = proved.listed(), (self.costs.get(PROOFS) or [0, 0])[1] or 0
        rest = [name for name in proved.resting_on(self.differing) if name not in self.differing]
        if not self.differing:
            said = '%d crates are as they were proved (kit %s): `./test proofs` proves them again here, some %s%s' % (
                len(self.sums) - 1, known['kit'], minutes(price / self.processors), '' if self.has_kit else ', with the kit')
        elif not known:
            said = 'there is no list of what was proved, tests/proved.sums'
        elif self.has_kit and known['kit'] != self.sums['kit']:
            said = 'the crates were proved by another kit, %s' % known['kit']
        else:
            said = 'not as they were proved: %s%s' % (', '.join(self.differing), '; on these rest ' + ', '.join(rest) if rest else '')
        self.report.print(said)
        if not self.is_of_dist and not self.given.all:
            self.report.print('dist/ is of other sources than these: the kit makes the library of these')
        # Of the wrong bodies few are tried, but for a release.
        seconds = sum((self.costs.get(name) or [0, 0])[self.given.all] or 0 for name in self.chosen() if name != BODIES or self.given.release)
        last = self.last().get(self.form())
        self.report.print('%d parts, %d at a time: %s' % (len(self.chosen()), self.processors, 'they took %s last time here' % minutes(last) if last is not None else
                                                          'some %s, by tests/costs' % minutes(seconds / self.processors)))

    def form(self):
        """The name of this form of a run, in the file of the times that runs took here."""
        return ('release' if self.given.release else 'whole' if self.given.all else 'quick') + ('' if self.is_of_dist else '-built')

    def last(self):
        """The seconds that whole runs took here last time, by their forms."""
        if not os.path.exists(LAST):
            return {}
        with open(LAST, encoding='utf-8') as file:
            return {name: float(seconds) for name, seconds in (line.split() for line in file)}

    def judge_list(self, proofs):
        """The row of the proofs about the list: it is that of the tree. With `--write` it is written if all was proved."""
        if proofs.words == GATE and self.given.write and not proofs.failed and proved.sums() == self.sums:
            proved.write(self.sums)
            self.differing = []
        if self.given.all or self.given.part:
            proofs.judge('tests/proved.sums is of these crates and this kit', not self.differing, 'it differs in %s: `./test proofs --write` writes it '
                         'once all are proved' % ', '.join(self.differing))
        elif self.differing:
            self.report.left.append('tests/proved.sums is of these crates: `./test proofs --write`')

    def prove(self):
        """Runs the proofs, which are told as they come: alone they may take an hour."""
        with watched(self.given.costs) as spent:
            self.runs.run(self.part(PROOFS), not self.report.is_terminal, self.judge_list)
        self.seen.update({'%s/%s' % (PROOFS, crate): seconds for crate, seconds in spent.crates().items()})

    def run(self):
        """Runs the parts."""
        chosen = self.chosen()
        if self.given.part:
            for name in chosen:
                if name == PROOFS:
                    self.prove()
                else:
                    self.runs.run(self.part(name), True)
            return
        self.say_first()
        begun = time.monotonic()
        if self.is_of_dist:
            self.run_on_dist(chosen)
        else:
            others = [self.part(name) for name in chosen if name not in (PROOFS, BODIES, LIBRARY, *AT_ONCE, *OF_ALL)]
            Built(self.runs, self.part, self.given.all, self.room).run(self.prove, others)
        times = {**self.last(), self.form(): time.monotonic() - begun}
        self.seen['all-by-the-clock-on-%d' % self.processors] = times[self.form()]
        self.seen['all'] = sum(part.used for part in self.runs.done)
        os.makedirs(os.path.dirname(LAST), exist_ok=True)
        with open(LAST, 'w', encoding='utf-8') as file:
            file.writelines('%s %.1f\n' % row for row in times.items())

    def run_on_dist(self, chosen):
        """Runs the parts on what is made from dist/, without the kit but for what it proves, side by side."""
        proofs = threading.Thread(target=self.prove, daemon=True)
        if PROOFS in chosen:
            proofs.start()
        self.environment = {**os.environ, 'PATH': path_without_kit(self.room)}
        parts = [self.part(name) for name in chosen if name != PROOFS]
        for part in parts:
            part.after = PROOFS if part.name == BODIES and PROOFS in chosen else part.after
        self.runs.side_by_side(parts, self.processors)
        if PROOFS in chosen:
            proofs.join()

    def end(self):
        """Says what was seen. Returns whether nothing failed."""
        self.report.left += self.left()
        self.report.needing += self.needing()
        if self.given.costs:
            write_costs({**self.costs_of_parts(), **self.seen}, self.given.all)
        return self.report.end(self.runs.done, self.has_kit and self.is_of_dist)

    def costs_of_parts(self):
        """What the parts cost, and the wrong bodies of each crate that was tried; of all of them only if all were."""
        found = {part.name: part.used for part in self.runs.done if part.name != BODIES or self.given.release}
        tried = re.findall(r'^(\w+): \d+ stanzas by \d+ checks, (\d+) s of processor time, (\d+) s more',
                           ''.join(part.text for part in self.runs.done if part.name == BODIES), re.M)
        return {**found, **{'%s/%s' % (BODIES, crate): int(tried) + int(read) for crate, tried, read in tried}}

    def list(self):
        """Prints what would be run."""
        for name in self.chosen():
            part = self.part(name)
            self.report.print('== ' + shlex.join(part.words if name == PROOFS else part.shown))
            if name == BODIES:
                said = self.runs.call([*part.words, '--list'])[1]
                self.report.print(said.rstrip().rpartition('\n')[0])
        self.report.show('not run, since they need the Rattle kit (README.md, What is trusted)', self.needing())
        self.report.show('left to ./test --all', self.left())


def main():
    given = words()
    with tempfile.TemporaryDirectory() as room:
        gate = Gate(given, room)

        def end(number, _):
            done = list(gate.runs.done)
            gate.runs.end(number)
            gate.report.show('FAILED before %s' % signal.Signals(number).name, told(done))
            sys.exit(128 + number)
        for number in (signal.SIGINT, signal.SIGTERM, signal.SIGHUP):
            signal.signal(number, end)
        if given.list:
            gate.list()
            return 0
        # In a thread, so that this one can end it. A signal may reach any thread, and this one alone acts on it, once it wakes.
        with concurrent.futures.ThreadPoolExecutor(1) as pool:
            running = pool.submit(gate.run)
            while not running.done():
                concurrent.futures.wait([running], 1)
            running.result()
        return 0 if gate.end() else 1


if __name__ == '__main__':
    sys.exit(main())
