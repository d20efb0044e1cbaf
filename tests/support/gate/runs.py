"""Runs the parts of `./test`, several at a time, and reads what each wrote."""

import contextlib
import os
import re
import shlex
import signal
import subprocess
import threading
import time

from support.gate.parts import BODIES, PROOFS, TOP

# A row that failed, as a check writes it: its name, and what was expected and came below it.
FAILED = re.compile(r'^FAILED (.*)\n((?:  .*\n)*)', re.M)
OF_BODIES = re.compile(r'^(\w+): (.*?): FAILED: (.*)$', re.M)
OF_PROOFS = re.compile(r'^(?:rt: )?(.*(?:NOT PROVED|FAILED|BAD EDIT|NOT TRIED|NOT REFUSED).*)$', re.M)
TOTALS = re.compile(r'(?:^|\n)(\d+) passed, (\d+) failed\s*$')


class Part:
    """A part to run: its name, its command and how a developer writes that, the part that has to be done before it, what it may
    cost; and once it was run what it wrote and took, and which of its rows failed."""

    def __init__(self, name, words, shown=None, after=None, environment=None, cost=0.0):
        self.name, self.words, self.shown, self.after, self.environment, self.cost = name, words, shown or words, after, environment, cost
        self.passed = self.failed = self.status = 0
        self.text, self.seconds, self.used = '', 0.0, 0.0
        # Of each row that failed: its name, what it said, and the command that runs it by itself.
        self.faults = []

    def command(self):
        return shlex.join(self.shown)

    def noted(self, mark):
        """What it skipped or left, by the first words of such lines."""
        return re.findall(r'^%s: (.*)$' % mark, self.text, re.M)

    def read(self):
        """Reads its last line, and the rows that failed. A part that fails and says nothing counts as one row."""
        last = TOTALS.search(self.text)
        self.passed, self.failed = map(int, last.groups()) if last else (0, 0)
        if self.name == PROOFS:
            self.faults = [(line, '', self.command()) for line in OF_PROOFS.findall(self.text)]
        elif self.name == BODIES:
            self.faults = [('%s: %s' % (crate, name), '  %s\n' % said, shlex.join(['wrong-bodies/try', crate, '-k', name]))
                           for crate, name, said in OF_BODIES.findall(self.text)]
        else:
            self.faults = [(name, said, self.command() if '-k' in self.shown else shlex.join([*self.shown, '-k', name]))
                           for name, said in FAILED.findall(self.text)]
        if self.failed == 0 and (self.status or not last):
            self.judge('it ends with status 0 and its last line', False, 'status %d\n%s' % (self.status, self.text[-600:]))

    def judge(self, name, holds, said):
        """One more row."""
        if holds:
            self.passed += 1
        else:
            self.failed += 1
            self.faults.append((name, ''.join('  %s\n' % line for line in said.splitlines()), self.command()))


class Runs:
    """The parts that were run, and the processes that run, with the report that is told of them."""

    def __init__(self, report):
        self.report, self.done, self.running = report, [], set()
        self.changed, self.is_ended = threading.Condition(), False

    def call(self, words, environment=None, hear=None):
        """The status of a command, what it writes, and the seconds of a processor that it takes. `hear` gets each line as it comes."""
        with self.changed:
            if self.is_ended:
                return 1, '', 0.0
            process = subprocess.Popen(words, cwd=TOP, env=environment, stdin=subprocess.DEVNULL, stdout=subprocess.PIPE,
                                       stderr=subprocess.STDOUT, start_new_session=True)
            self.running.add(process.pid)
        lines = []
        with process.stdout:
            for line in process.stdout:
                lines.append(line.decode('utf-8', 'replace'))
                if hear:
                    hear(lines[-1])
        _, status, used = os.wait4(process.pid, 0)
        process.returncode = os.waitstatus_to_exitcode(status)
        with self.changed:
            self.running.discard(process.pid)
            self.changed.notify_all()
        return process.returncode, ''.join(lines), used.ru_utime + used.ru_stime

    def run(self, part, is_told=False, judge=None):
        """Runs a part to its end, which the report hears as it comes if that is asked. `judge` may add rows."""
        begun, hear = time.monotonic(), None
        if is_told:
            self.report.begin(part)
            hear = self.report.hear
        try:
            part.status, part.text, part.used = self.call(part.words, part.environment, hear)
        except OSError as fault:
            part.status, part.text = 127, str(fault)
        part.seconds = time.monotonic() - begun
        part.read()
        if judge:
            judge(part)
        self.finish(part, is_told)

    def finish(self, part, was_told=False):
        """A part has ended: those that wait for it may begin."""
        with self.changed:
            self.done.append(part)
            if not self.is_ended:
                self.report.end_of(part, was_told)
            self.changed.notify_all()

    def is_done(self, name):
        return name is None or any(part.name == name for part in self.done)

    def work(self, waiting):
        """Runs one of these parts after another, the dearest of those that may begin first, until none waits."""
        while True:
            with self.changed:
                self.changed.wait_for(lambda: self.is_ended or not waiting or any(self.is_done(part.after) for part in waiting))
                if self.is_ended or not waiting:
                    return
                part = max((one for one in waiting if self.is_done(one.after)), key=lambda one: one.cost)
                waiting.remove(part)
            self.run(part)

    def side_by_side(self, waiting, number):
        """Runs these parts, at most `number` at a time."""
        lanes = [threading.Thread(target=self.work, args=(waiting,), daemon=True) for _ in range(number)]
        for lane in lanes:
            lane.start()
        for lane in lanes:
            lane.join()

    def end(self, number):
        """Ends all that runs by this signal, and what still runs after a while by another."""
        with self.changed:
            self.is_ended = True
            for one in (number, signal.SIGKILL):
                for process in self.running:
                    with contextlib.suppress(ProcessLookupError):
                        os.killpg(process, one)
                if self.changed.wait_for(lambda: not self.running, 20):
                    break
            self.changed.notify_all()
