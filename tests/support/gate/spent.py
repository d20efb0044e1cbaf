"""What the crates take of a processor while the kit proves them: it does not say that, /proc does."""

import contextlib
import os
import threading
from pathlib import Path

from support.gate.parts import TOP

# How often it is looked up, in seconds: what ends sooner may be missed.
EVERY = 2


class Spent(threading.Thread):
    """Looks up, as long as it runs, what the prover's processes in the folders of the crates have used."""

    def __init__(self):
        super().__init__(daemon=True)
        self.ended, self.used = threading.Event(), {}

    def run(self):
        while not self.ended.wait(EVERY):
            for path in Path('/proc').glob('[0-9]*'):
                with contextlib.suppress(OSError):
                    self.look(path)

    def look(self, path):
        """Looks at a process: one that checks or builds a crate has its name in its command."""
        words = (path / 'cmdline').read_bytes().split(b'\0')
        if b'--crate-name' in words and os.path.dirname(os.readlink(path / 'cwd')) == os.path.join(TOP, 'crates'):
            fields = (path / 'stat').read_text(encoding='utf-8', errors='replace').rpartition(')')[2].split()
            crate = words[words.index(b'--crate-name') + 1].decode()
            self.used[path.name, fields[19], crate] = (int(fields[11]) + int(fields[12])) / os.sysconf('SC_CLK_TCK')

    def crates(self):
        """The seconds of a processor of each crate."""
        found = {}
        for (_, _, crate), seconds in self.used.items():
            found[crate] = found.get(crate, 0) + seconds
        return found


@contextlib.contextmanager
def watched(is_asked):
    """What the crates take meanwhile, if that is asked."""
    spent = Spent()
    if is_asked:
        spent.start()
    try:
        yield spent
    finally:
        spent.ended.set()
