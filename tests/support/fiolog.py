"""Runs `fiolog` of the repository with the library at its top, or with the one that FIO2070_LIBRARY names: in the quick form of a
check in a copy of its own process, since to begin Python and to compile the package costs ten times what most runs do, and with
`--all` as a user does."""

import contextlib
import json
import os
import pty
import re
import signal
import subprocess
import sys
import tempfile
from typing import NamedTuple, Union

from support.tables import TOP

PACKAGES = os.path.join(TOP, 'bindings', 'python')
LIBRARY = os.environ.get('FIO2070_LIBRARY') or os.path.join(TOP, 'libfio2070.so')
# To compile the package takes longer than most runs, so compiled modules are kept, apart from the sources.
COMPILED = os.path.join(TOP, 'out', 'compiled')
ENVIRONMENT = {**{name: value for name, value in os.environ.items() if name != 'PYTHONDONTWRITEBYTECODE'},
               'FIO2070_LIBRARY': LIBRARY, 'PYTHONPATH': PACKAGES, 'PYTHONPYCACHEPREFIX': COMPILED}
TOOL = [sys.executable, '-m', 'fiolog']


# The longest input that a pipe takes at once, and the longest time of a run, in seconds.
PIPE, LONGEST = 1 << 16, 300
# Whether runs are copies of this process: it has the packages.
may_copy = False


class Done(NamedTuple):
    """What a run wrote, and its status."""
    out: Union[str, bytes]
    err: str
    status: int

    @property
    def remarks(self):
        """What it says on standard error, but for how lines are read."""
        return ''.join(line + '\n' for line in self.err.splitlines() if not line.startswith('fiolog: read as '))

    def objects(self):
        """The objects that a run with `--json` wrote."""
        return json.loads('[%s]' % self.out.replace('}\n{', '},{'))

    def summary(self):
        """What the last of them says of the whole."""
        return self.objects()[-1]['summary']

    def found(self, form):
        """What of the lines of its output fits this form."""
        return re.findall(form, self.out, re.M)


def use_library(check, name):
    """Lets this process import the packages. If there is no library, skips the rows of this name, and ends."""
    if not may_use_library(check, name):
        check.end()


def may_use_library(check, name):
    """Lets this process import the packages. If there is no library, skips the rows of this name."""
    if not os.path.exists(LIBRARY):
        check.skip(name, 'no libfio2070.so here (make library)')
        return False
    global may_copy
    may_copy = not check.given.all and hasattr(os, 'fork')
    os.environ['FIO2070_LIBRARY'] = LIBRARY
    sys.path.insert(0, PACKAGES)
    if may_copy:
        from fiolog.__main__ import COMMANDS, module_of
        for command in COMMANDS:
            module_of(command)
    return True


def fiolog(*words, text='', parts=(), is_text=True):
    """A run of the tool with this input; or with one that it reads in these parts, each of 1 to 4,096 octets."""
    octets = text.encode('utf-8')
    if parts:
        status, *written = (copied if may_copy else fed)(words, parts=parts)
    elif may_copy and len(octets) < PIPE:
        status, *written = copied(words, octets)
    else:
        done = subprocess.run([*TOOL, *words], input=octets, stdout=subprocess.PIPE, stderr=subprocess.PIPE, env=ENVIRONMENT, timeout=LONGEST)
        status, written = done.returncode, (done.stdout, done.stderr)
    out, err = (text.decode('utf-8', 'surrogateescape') for text in written)
    return Done(out if is_text else written[0], err, status)


def started(*words, **streams):
    """A run that goes on, whose streams are pipes unless they are named."""
    pipes = dict.fromkeys(('stdin', 'stdout', 'stderr'), subprocess.PIPE)
    return subprocess.Popen([*TOOL, *words], env=ENVIRONMENT, **{**pipes, **streams})


def written(folder, name, content):
    """The path of a new file with this content, octets or a text."""
    path = os.path.join(folder, name)
    with open(path, 'wb') as file:
        file.write(content if isinstance(content, bytes) else content.encode())
    return path


def verdicts_on(octets, form='auto'):
    """The verdicts of the library on the lines of a log."""
    import fio2070
    reader = fio2070.LogReader(form)
    return reader.read(octets) + reader.end()


def frames_in(verdicts, kind='frames'):
    """The frames of verdicts, or the messages of those of another kind."""
    return [octets for one in verdicts if one.kind == kind for octets in one.frames]


@contextlib.contextmanager
def reading(lines):
    """Lets `fiolog` read these lines in any log, in copies of this process too: each is its kind, its reason and its frames."""
    import fio2070
    verdicts = [fio2070.Verdict(number, *line, (), None, '') for number, line in enumerate(lines, 1)]

    class Reader:
        def __init__(self, form='auto'):
            pass

        def batches(self, octets):
            """Nothing is certain yet."""
            return ()

        def last_batches(self):
            yield fio2070.LogBatch(verdicts)

        def forms(self):
            """None is known."""
            return []

        def ended(self):
            """What waits is the same if the log ends here."""
            return self
    real, fio2070.LogReader = fio2070.LogReader, Reader
    try:
        yield
    finally:
        fio2070.LogReader = real


def feed(parts, pipe):
    """Writes these parts into a pipe."""
    os.close(pipe[0])
    for part in parts:
        os.write(pipe[1], part)
    os.close(pipe[1])


def pipe_of_parts():
    """A pipe of which each read returns what was written at once."""
    return os.pipe2(os.O_DIRECT)


def fed(words, parts):
    """The status of a run whose input it reads in these parts, and what it writes."""
    pipe = pipe_of_parts()
    run = started(*words, stdin=pipe[0])
    feed(parts, pipe)
    out, err = run.communicate(timeout=LONGEST)
    return run.returncode, out, err


def copied(words, octets=b'', parts=()):
    """The status of a run in a copy of this process, with this input or these parts of one, and what it writes."""
    pipe = pipe_of_parts() if parts else os.pipe()
    with tempfile.TemporaryFile() as out, tempfile.TemporaryFile() as err:
        child = os.fork()
        if child == 0:
            os.close(pipe[1])
            become(words, pipe[0], out.fileno(), err.fileno())
        feed(parts or [octets], pipe)
        status = os.waitstatus_to_exitcode(os.waitpid(child, 0)[1])
        out.seek(0)
        err.seek(0)
        return status, out.read(), err.read()


def become(words, *streams):
    """Becomes a run of the tool with these streams, and ends."""
    status = 70
    try:
        signal.alarm(LONGEST)
        os.environ.update(ENVIRONMENT)
        for number, stream in enumerate(streams):
            os.dup2(stream, number)
        sys.stdin, sys.stdout, sys.stderr = open(0, closefd=False), open(1, 'w', closefd=False), open(2, 'w', errors='backslashreplace', closefd=False)
        from fiolog.__main__ import main
        try:
            status = main(list(words))
        except SystemExit as end:
            status = end.code or 0
        sys.stdout.flush()
    except BaseException:
        sys.excepthook(*sys.exc_info())
    finally:
        sys.stderr.flush()
        os._exit(status)


class Terminal:
    """A run on a pseudo-terminal, where its standard error is, and its standard output without `out`."""

    def __init__(self, words, python=sys.executable, out=None, text='', **settings):
        self.leader, follower = pty.openpty()
        environment = {**ENVIRONMENT, 'TERM': 'xterm-256color', 'COLUMNS': '120', 'LINES': '40', **settings}
        self.process = subprocess.Popen([python, *TOOL[1:], *words], stdin=subprocess.PIPE, stdout=out or follower, stderr=follower, env=environment)
        os.close(follower)
        self.process.stdin.write(text.encode())
        self.process.stdin.close()
        self.shown = b''

    def __enter__(self):
        return self

    def __exit__(self, *_):
        self.process.wait()
        os.close(self.leader)

    def read(self):
        """Reads some of what is written, if it goes on. Returns whether it does."""
        part = b''
        with contextlib.suppress(OSError):      # the end, on Linux
            part = os.read(self.leader, 1 << 16)
        self.shown += part
        return part != b''

    def wait_for(self, text):
        """Reads until it shows a text."""
        while text.encode() not in self.shown and self.read():
            pass

    def rest(self):
        """All that it shows, after its end."""
        while self.read():
            pass
        return self.shown.decode()


def on_terminal(python, words, out=None, text='', **settings):
    """What a run writes on a pseudo-terminal."""
    with Terminal(words, python, out, text, **settings) as run:
        return run.rest()
