"""Where output goes. No file that is read is written to. What is made in one go is written to another file, which is renamed when
it is whole; what is recorded as it comes begins a new file. Pipes, devices and streams are written to as they are."""

import contextlib
import errno
import io
import os
import stat
import sys

from . import signals, statuses
from .terminal import fault_words, say, status as status_line

STANDARD = 'standard output'
STREAMS = {1: STANDARD, 2: 'standard error'}
# Where Linux shows the open files of a process.
_OPEN_FILES = '/proc/self/fd'
# The octets of an output's name in that of the file that takes its place; a name has 255 at most.
_MOST_NAME = 200
_BEGIN = os.O_WRONLY | os.O_CREAT | getattr(os, 'O_BINARY', 0)


class Refused(Exception):
    """A file is not written to; the text says why."""


class _Named(io.BufferedWriter):
    """A file whose faults name it. It does so above its buffer: a signal between a write of the system and its end would otherwise have the
    same octets written again."""

    def __init__(self, descriptor, title, is_kept=False):
        super().__init__(io.FileIO(descriptor, 'wb', closefd=not is_kept))
        self.title = title

    def write(self, octets):
        with self._faults_named():
            return super().write(octets)

    def flush(self):
        with self._faults_named():
            super().flush()

    @contextlib.contextmanager
    def _faults_named(self):
        try:
            yield
        except OSError as fault:
            fault.filename = self.title
            raise


def _file_of(descriptor, title, is_binary):
    """The file of a descriptor. Text is UTF-8; octets of the command line that are none stay as they are."""
    file = _Named(descriptor, title)
    return file if is_binary else io.TextIOWrapper(file, encoding='utf-8', errors='surrogateescape', newline='')


def standard(stream):
    """Standard output, whose faults name it, and which can say every text."""
    try:
        file = _Named(stream.fileno(), STANDARD, is_kept=True)
    except (AttributeError, OSError, ValueError):
        return stream       # none of the system's
    stream.flush()
    return io.TextIOWrapper(file, encoding=stream.encoding, errors='backslashreplace', line_buffering=stream.line_buffering)


def _state(name):
    """What the system says of a file, or of the one that a descriptor has open; None if there is none."""
    try:
        return os.fstat(name) if isinstance(name, int) else os.stat(name)
    except OSError:
        return None


def _is_file(state):
    return state is not None and stat.S_ISREG(state.st_mode)


def _is_stream(name, state):
    """Whether this process was begun with this file open, as that of `/dev/stdout` or `/dev/fd/3`."""
    folder = os.path.realpath(os.path.dirname(name) or '.')
    return folder in ('/dev', '/dev/fd') or folder.startswith('/proc/') or any(
        (one := _state(descriptor)) and os.path.samestat(one, state) for descriptor in (1, 2))


def is_regular(name):
    """Whether a name is that of a regular file, which output would overwrite."""
    state = _state(name)
    return _is_file(state) and not _is_stream(name, state)


def refuse_inputs(outputs, inputs):
    """Raises Refused if a regular file is read and written. Inputs and outputs are names or descriptors; None is no file."""
    read = [(name, _state(name)) for name in inputs if name is not None]
    for output in outputs:
        state = None if output is None else _state(output)
        if _is_file(state) and any(_is_file(one) and os.path.samestat(one, state) for _, one in read):
            raise Refused('%s is read and written: name another output' % STREAMS.get(output, output))


def refuse_old(names, is_forced):
    """Raises Refused if a recording would overwrite a file, or if two would be the same."""
    names = [name for name in names if name not in (None, '-')]
    places = [os.path.realpath(name) for name in names]
    for name, place in zip(names, places):
        if not is_forced and is_regular(name):
            raise Refused('%s is there already: --force overwrites it' % name)
        if places.count(place) > 1 and (is_regular(name) or not os.path.exists(place)):
            raise Refused('%s is written twice: name another output' % name)


def recorded(name, is_forced, is_binary=False):
    """A file that is written as its text comes. Raises Refused if it would overwrite one, unless it `is_forced`."""
    try:
        descriptor = os.open(name, _BEGIN | os.O_EXCL, 0o666)
    except FileExistsError:
        refuse_old([name], is_forced)
        descriptor = os.open(name, _BEGIN | os.O_TRUNC, 0o666)
    return _file_of(descriptor, name, is_binary)


@contextlib.contextmanager
def made(name, is_binary=False):
    """A file that is made in one go: at its end it takes the place of one with this name, with its mode; on a fault that stays
    as it was, and nothing is left."""
    state = _state(name)
    if state is not None and (not _is_file(state) or _is_stream(name, state)):
        with _file_of(os.open(name, _BEGIN | os.O_TRUNC, 0o666), name, is_binary) as file:
            yield file
        return
    place = os.path.realpath(name)
    beside = _beside(place)
    try:    # a signal may come as soon as the file is there
        with _file_of(_opened_beside(name, beside, state), name, is_binary) as file:
            yield file
            file.flush()
            os.fsync(file.fileno())     # what takes the place of a file is on the disk
            _give_name(file.fileno(), beside)
        os.replace(beside, place)
    except BaseException:
        with contextlib.suppress(OSError):
            os.unlink(beside)
        raise


def _beside(place):
    """A name in the same folder that says whose file it is, for as long as that is not whole."""
    import secrets
    folder, name = os.path.split(os.fsencode(place))
    return os.fsdecode(os.path.join(folder, b'.%s.fiolog-%s' % (name[:_MOST_NAME], secrets.token_hex(4).encode())))


def _give_name(descriptor, beside):
    """Gives a file its name, if it has none yet."""
    if os.name != 'posix' or os.fstat(descriptor).st_nlink:
        return
    folder = os.open(_OPEN_FILES, os.O_RDONLY)      # with a folder it is `linkat`, which follows this link
    try:
        os.link(str(descriptor), beside, src_dir_fd=folder, follow_symlinks=True)
    finally:
        os.close(folder)


def _opened_new(beside, mode):
    """The descriptor of a new file: without a name where the system has such files, since a kill would leave it."""
    with contextlib.suppress(OSError, AttributeError):      # not in this folder, or not of this system
        if os.path.isdir(_OPEN_FILES):
            return os.open(os.path.dirname(beside) or '.', os.O_WRONLY | os.O_TMPFILE, mode)
    return os.open(beside, _BEGIN | os.O_EXCL, mode)


def _opened_beside(name, beside, old):
    """The descriptor of a new file, with the owner and the mode of the old one if there is one."""
    if old and not os.access(name, os.W_OK):
        raise PermissionError(errno.EACCES, os.strerror(errno.EACCES), name)
    try:
        descriptor = _opened_new(beside, 0o666 if old is None else 0o600)
    except OSError as fault:
        fault.filename = name
        raise
    if old:
        with contextlib.suppress(OSError, AttributeError):      # no leave, or no owners here
            os.fchown(descriptor, old.st_uid, old.st_gid)
        _set_mode(descriptor, beside, stat.S_IMODE(old.st_mode))
    return descriptor


def _set_mode(descriptor, beside, mode):
    if os.chmod in os.supports_fd:
        os.chmod(descriptor, mode)
    else:
        os.chmod(beside, mode)


def guarded(name, run):
    """Runs a command of this name, and returns its status. What ends it is said in one line: an output that is refused, or a file that
    cannot be read or written. If nobody reads its output, the status is 1, without a word."""
    sys.stdout = standard(sys.stdout)
    try:
        signals.end_in_order()
        try:
            status = _status(name, run)
        finally:
            signals.end_at_once()
    except KeyboardInterrupt:
        signals.end_at_once()
        status = statuses.ENDED
    status_line.clear()
    try:
        sys.stdout.flush()
    except OSError:
        # What is still held goes nowhere.
        os.dup2(os.open(os.devnull, os.O_WRONLY), sys.stdout.fileno())
    return status


def _status(name, run):
    """The status of a command that nothing from outside ends; what ends it is said."""
    try:
        try:
            status = run()
        except SystemExit:      # at the end of --help
            sys.stdout.flush()
            raise
        sys.stdout.flush()
        return status
    except BrokenPipeError:
        return statuses.BREACH      # the reader, such as `head`, has enough
    except Refused as refusal:
        say(str(refusal), name)
        return statuses.REFUSED
    except OSError as fault:
        say(fault_words(fault), name)
        return statuses.FAILED
