"""The parts of `./test` on what the Rattle kit makes of the sources: `rt ci` proves the crates in their folders; beside it a copy of the
sources takes each library as soon as that is built, for the C library and the parts that need no more. Then come the other checks."""

import os
import shutil
import sys
import threading

from support.gate.parts import BODIES, LIBRARY, TOP, has
from support.gate.runs import Part

ARCHIVE, WASM, AARCH64 = ('crates/fio_c/out/' + name for name in ('libfio_c.a', 'wasm64-unknown-unknown', 'aarch64-unknown-linux-gnu'))
# The checks that are run in the copy, since `rt ci` needs the folders of the crates for itself; and then those that need all libraries
# there, which they would prove once more.
AT_ONCE, OF_ALL = ('embedding', 'portable', 'portable-instructions'), ('release-files',)


class Built:
    """One such run: its calls, `part`, which makes a part by its name, and the room that has the copy."""

    def __init__(self, runs, part, is_whole, room):
        self.runs, self.part, self.is_whole, self.room = runs, part, is_whole, room
        self.copy, self.made, self.are_proved = os.path.join(room, 'copy'), threading.Event(), threading.Event()
        # Files that say so when `rt ci` has ended, and when the copy has all libraries that wrong bodies need.
        self.proved, self.taken = os.path.join(room, 'proved'), os.path.join(room, 'taken')

    def run(self, proofs, others):
        """Runs the proofs, and these other checks once the library is made."""
        shutil.copytree(TOP, self.copy, symlinks=True, ignore=shutil.ignore_patterns('.git', 'out'))
        beside = [threading.Thread(target=work, daemon=True) for work in (self.work_in_copy, self.try_bodies)]
        for one in beside:
            one.start()
        # More jobs cost processor time, which is only worth it if some processors would be idle.
        processors = len(os.sched_getaffinity(0))
        if processors < 4:
            os.environ['RT_JOBS'] = str(processors)
        proofs()
        write(self.proved)
        self.are_proved.set()
        self.made.wait()
        self.bring_back()
        self.runs.side_by_side(others, 3 if processors >= 4 else 2)
        for one in beside:
            one.join()

    def take(self, *crates):
        """Gives the copy the libraries below these crates."""
        self.runs.call([sys.executable, '-B', 'tests/support/libraries.py', self.copy, *crates, '--until', self.proved])

    def make(self):
        """Makes the archives and the module for the page in the copy. Returns what make writes if that fails."""
        archives = [ARCHIVE, 'wasm'] + [os.path.join(AARCH64, 'libfio_c.a')] * self.is_whole
        status, text, _ = self.runs.call(['make', '-s', '-C', self.copy, *archives, 'RTFLAGS=--jobs 1'])
        return text if status else ''

    def work_in_copy(self):
        """Makes the archives, for which the other checks wait, and runs what needs only them. Meanwhile the copy takes the libraries for
        wrong bodies."""
        self.take('fio_c')
        taking = threading.Thread(target=lambda: (self.take('fio_logs', 'fio_tool'), write(self.taken)), daemon=True)
        taking.start()
        # If that fails beside the proofs, as for want of memory, it is tried again after them.
        fault = self.make()
        if fault:
            self.are_proved.wait()
            fault = self.make()
        library = Part(LIBRARY, ['make', 'library'])
        library.judge('the archives are made', not fault, fault)
        self.runs.finish(library)
        self.made.set()
        for name in AT_ONCE:
            self.run_in_copy(name)
        taking.join()
        for name in OF_ALL:
            self.run_in_copy(name)

    def run_in_copy(self, name):
        """Runs a check in the copy."""
        one = self.part(name)
        one.words = [os.path.join(self.copy, one.words[0]), *one.words[1:]]
        self.runs.run(one)

    def try_bodies(self):
        """Tries the wrong bodies, those of each crate as soon as the libraries that it uses exist."""
        bodies = self.part(BODIES)
        bodies.words = [os.path.join(self.copy, bodies.words[0]), *bodies.words[1:],
                        '--lanes', str(len(os.sched_getaffinity(0))), '--until', self.taken]
        self.runs.run(bodies)

    def bring_back(self):
        """Takes what the copy made. It is newer than the sources, so that make does not prove them again."""
        files = [ARCHIVE] + [os.path.join(WASM, name) for name in ('libfio_c.a', 'proof', 'fio_c.wasm')]
        for name in files + [os.path.join(AARCH64, 'libfio_c.a')] * self.is_whole:
            if os.path.exists(os.path.join(self.copy, name)):
                os.makedirs(os.path.dirname(os.path.join(TOP, name)), exist_ok=True)
                shutil.copyfile(os.path.join(self.copy, name), os.path.join(TOP, name))
        if has('cc'):
            # What `fiolog` loads.
            self.runs.call(['make', '-s', 'library'])


def write(path):
    """Makes an empty file."""
    with open(path, 'w', encoding='utf-8'):
        pass
