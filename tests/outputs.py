#!/usr/bin/env -S python3 -B
"""What `fiolog` and the tools beside it do in difficult cases: octets that are no UTF-8 in strict locales, control characters in a
log or in a file's name, files that are read and written, recordings that are there already, full disks, long lines, processes
that die, Ctrl-C. Last line: `N passed, M failed`."""

import contextlib
import json
import os
import random
import re
import signal
import stat
import subprocess
import sys
import tempfile
import time
from pathlib import Path

import support.fiolog
from support.check import Check
from support.fiolog import ENVIRONMENT, PACKAGES, PIPE, TOOL, copied, on_terminal, started, use_library, written
from support.kinds import LITTLE
from support.tables import TOP
from support.waits import LONGEST, sleeps, until, used

GOOD = b'> 3605\n< b605018c03e700000003e8\n> 3606\n< b606010c07d000000007d1\n'
LAUNCHER, LAUNCHER_OF_PIP = os.path.join(TOP, 'tools', 'fiolog'), 'import sys; from fiolog import main; sys.exit(main())'
# A line that may have held a frame, with what a terminal would obey, octets that are no UTF-8, other letters, and line ends of
# Unicode; and how it is shown.
DAMAGED = b'RX b6 05 00 00 00 00 00 01\nRX b6 06 00 00 00 00 00 02\nRX b6 07 00 '
ACTING = (b'\x1b]52;c;aGk=\x07', b'\xff\xfe', '\u009b31m'.encode(), '\u2028'.encode(), '\u202e'.encode(), b'\x7f', b'\xed\xa0\x80')
SHOWN = ('\\x1b]52;c;aGk=\\x07', '\\xff\\xfe', '\\x9b31m', '\\u2028', '\\u202e', '\\x7f', '\\xed\\xa0\\x80')
# What no shown text has: C0 but line feed, DEL, C1, line ends and turns of Unicode.
ACTS = re.compile('[\0-\x09\x0b-\x1f\x7f-\x9f\u2028-\u202e]')
LOCALES = {'UTF-8, strict': {'PYTHONIOENCODING': 'utf-8:strict'}, 'ASCII, strict': {'PYTHONIOENCODING': 'ascii:strict'},
           'C': {'LC_ALL': 'C', 'PYTHONUTF8': '0', 'PYTHONCOERCECLOCALE': '0'}, 'POSIX': {'LC_ALL': 'POSIX'}}
COMMANDS = [['decode'], ['decode', '-v'], ['decode', '--json'], ['decode', '--csv'], ['check', '-v'], ['check', '--json'], ['stats'],
            ['stats', '--json'], ['record', '-v'], ['record', '--json'], ['record', '--csv'], ['record', '--text'],
            ['record', '--vcd'], ['convert', '--to', 'transcript'], ['convert', '--to', 'frames'], ['convert', '--to', 'pcapng'],
            ['convert', '--to', 'vcd'], ['decode', '--pattern', '(?P<octets>[0-9a-f]+)$'],
            ['decode', '--format', 'frames'], ['decode', '--format', 'transcript']]
EVENTS = ['--start', '2026-03-01T07:00:00', '--signal', '7', '--on', '0']


def run(*words, text=b'', folder=None, tool=TOOL, out=subprocess.PIPE, **settings):
    """A run of a tool, mostly `fiolog`: its status, and what it wrote on both streams, in octets."""
    done = subprocess.run([*tool, *words], input=text, stdout=out, stderr=subprocess.PIPE, env={**ENVIRONMENT, **settings}, cwd=folder,
                          timeout=300, check=False)
    return done.returncode, done.stdout, done.stderr


def run_as_is(*words, text=b''):
    """A run of `fiolog` with the settings of this process, in the quick form in a copy of it."""
    return copied(words, text) if support.fiolog.may_copy and len(text) < PIPE else run(*words, text=text)


def run_of_shell(words):
    """A run of `fiolog` with words for a shell."""
    return run('%s -m fiolog %s' % (sys.executable, words), tool=['sh', '-c'])


def run_on_full_disk(*words, **settings):
    """The status of a run whose standard output is a full disk, and what it says."""
    with open('/dev/full', 'wb') as out:
        status, _, err = run(*words, out=out, **settings)
    return status, err.decode()


def lines_of(octets):
    """The lines of a text, by line feed alone."""
    return octets.decode('utf-8').split('\n')[:-1]


def check_locales(check, folder):
    """Each command, in each locale, for a log and a name with octets that are no UTF-8: no traceback, nothing that acts."""
    name = written(folder, os.fsdecode(b'n\xff\xe9\x1b[1m\x07\xc3\xa9.log'),
                   DAMAGED + b' '.join(ACTING) + ' \u00e9 \u2192\n'.encode() + b'link \x1b]0;x\x07 \xfe down\n')
    for locale, settings in LOCALES.items() if check.whole('in all locales') else list(LOCALES.items())[:2]:
        for words in COMMANDS:
            status, out, err = run(*words, name, **settings)
            title = '%s in %s' % (' '.join(words), locale)
            check.holds('%s: no traceback' % title, status in (0, 1, LITTLE) and b'Traceback' not in err, err.decode('utf-8', 'replace')[-300:])
            texts = (err,) if 'pcapng' in words else (out, err)
            check.equal('%s: nothing that acts' % title, [], [one for text in texts for one in ACTS.findall(text.decode('utf-8', 'replace'))])
        for words in (['plan', '--inputs', '8', '--filter', '5'], ['live', '--fifo', name, '-v'], ['check', name, name + 'none'],
                      ['stats', '--json', name, 'none'], ['decode', name + 'none'], ['decode', '--' + os.fsdecode(b'\xff\x1b')]):
            status, out, err = run(*words, folder=folder, **settings)
            check.equal('%s in %s' % (words[0] + ' ' + words[-1].isascii() * words[-1], locale), (False, None, None),
                        (b'Traceback' in err, *(ACTS.search(text.decode('utf-8', 'replace')) for text in (out, err))))


def check_shown(check, folder):
    """How such text is shown, on both streams; objects are JSON for a strict parser, without surrogates."""
    for acting, shown in zip(ACTING, SHOWN):
        log = DAMAGED + acting + b'\n'
        for words, stream in ((['decode'], 1), (['decode', '-v'], 2), (['decode', '--json'], 1), (['decode', '--csv'], 1)):
            done = run_as_is(*words, text=log)
            found = done[stream].decode('utf-8', 'replace')
            if '--json' in words:
                found = json.loads(found.splitlines()[-1])['fault']
            check.holds('%s shows %s' % (' '.join(words), shown), shown in found, found)
    name = written(folder, os.fsdecode(b'\x1b[2J\xff.log'), GOOD + b'> 3609\nRX b6 09 00 \xff\n')    # block 7 was due

    def refuse(word):
        raise ValueError(word)
    for words in (['decode', '--json', name], ['check', '--json', name, name], ['check', '--json', name], ['check', '--json', name, name + '.none']):
        rows = [json.loads(line, parse_constant=refuse) for line in lines_of(run_as_is(*words)[1])]
        names = {row['file'] for row in rows if 'file' in row} - {os.path.join(folder, '\\x1b[2J\\xff.log.none')}
        check.equal('the name in %s' % ' '.join(words[:2]), {os.path.join(folder, '\\x1b[2J\\xff.log')}, names)
    os.mkdir(os.path.join(folder, '['))
    red = written(folder, '[/red].log', GOOD)
    if not check.has_terminal('names on a terminal'):
        return
    for python in [sys.executable, '/usr/bin/python3'] if os.path.exists('/usr/bin/python3') else [sys.executable]:
        text = on_terminal(python, ['stats', '-q', name, red], COLUMNS='400')
        check.holds('names on a terminal of %s' % python, all(words in text for words in ('[2J\\xff', '[/red].log'))
                    and '\x1b[2J' not in text, text)


def state(path):
    """The octets and the mode of a file."""
    return Path(path).read_bytes(), stat.S_IMODE(os.stat(path).st_mode)


def check_evidence(check, folder):
    """An output that is an input is refused; one that fails leaves what was there, and nothing beside it."""
    log, link, hard = written(folder, 'log', GOOD), *(os.path.join(folder, name) for name in ('link', 'hard'))
    os.symlink('log', link)
    os.link(log, hard)
    for path in (log, link, hard, os.path.join(folder, '.', 'log')):
        for words in (['convert', '--to', 'frames', '-o', path, log], ['record', '--hires', path, *EVENTS, log],
                      ['convert', '--to', 'pcapng', '-o', log, 'none', path],
                      ['live', '--fifo', log, '--transcript', path, '--force'], ['live', '--fifo', path, '--pcapng', log, '--force']):
            status, _, err = run(*words, folder=folder)
            check.equal('%s over its input' % ' '.join(words[:3]), (2, True, GOOD), (status, b' is read and written' in err, state(log)[0]))
    for words in ('convert --to frames -o %s < %s' % (log, link), 'convert --to frames -o %s - < %s' % (link, log), 'decode -v %s >> %s' % (log, hard),
                  'decode -v %s 2>> %s' % (log, link)):
        status = run_of_shell(words)[0]
        check.equal('a redirection over the input: ' + words.replace(folder, ''), (2, True), (status, state(log)[0].startswith(GOOD)))
        os.truncate(log, len(GOOD))
    out = written(folder, 'out', b'old')
    os.chmod(out, 0o640)
    for words in (['convert', '--to', 'frames', '-o', out, log, 'none'], ['record', '--hires', out, *EVENTS, log, 'none'],
                  ['record', '--hires', out, '--start', '9999-12-31T23:59:59', *EVENTS[2:], log],
                  ['record', '--hires', out, '--start', '0001-01-01T00:00:00', *EVENTS[2:], log]):
        status, _, err = run(*words, text=GOOD, folder=folder)
        check.equal('what fails leaves the old file: ' + ' '.join(words[:2]), (True, (b'old', 0o640), 1),
                    (status in (2, 3), state(out), len(err.splitlines())))
    check.equal('what is made takes its place, with its mode', (0, (b'3605\nb605018c03e700000003e8\n3606\nb606010c07d000000007d1\n', 0o640)),
                (run('convert', '-q', '--to', 'frames', '-o', out, log)[0], state(out)))
    new = os.path.join(folder, 'new')
    before = os.umask(0o027)
    try:
        run('convert', '--to', 'frames', '-o', new, log)
    finally:
        os.umask(before)
    check.equal('a new one has the mode of the umask', 0o640, state(new)[1])
    os.symlink('out', os.path.join(folder, 'to-out'))
    run('convert', '--to', 'transcript', '-o', os.path.join(folder, 'to-out'), log)
    check.equal('a link stays, and its file is new', (True, GOOD), (os.path.islink(os.path.join(folder, 'to-out')), state(out)[0]))
    check_signals(check, out)
    long_name = os.path.join(folder, 'n' * 255)
    check.equal('the longest name', (0, GOOD), (run('convert', '--to', 'transcript', '-o', long_name, log)[0], state(long_name)[0]))
    os.unlink(long_name)
    check.equal('nothing is left beside', ['hard', 'link', 'log', 'new', 'out', 'to-out'], sorted(os.listdir(folder)))


def check_signals(check, out):
    """Ctrl-C, SIGTERM and a kill while a file is made leave the old one, and nothing beside it where a file needs no name."""
    before = sorted(os.listdir(os.path.dirname(out)))
    for number, status in ((signal.SIGINT, 130), (signal.SIGTERM, 130), (signal.SIGKILL, -signal.SIGKILL)):
        command = started('convert', '--to', 'frames', '-o', out, stdout=None)
        command.stdin.write(GOOD)
        command.stdin.flush()
        folder = os.path.dirname(out)
        until(lambda: has_open_in(command.pid, folder))
        left = [name for name in sorted(os.listdir(folder)) if name not in before]
        owned = all(name.startswith('.out.fiolog-') for name in left)
        command.send_signal(number)
        err = command.communicate(timeout=LONGEST)[1]
        check.equal('%s leaves the old file' % number.name, (status, b'', GOOD, True), (command.returncode, err, state(out)[0], owned))
        for name in left if status < 0 else ():
            os.unlink(os.path.join(folder, name))


def has_open_in(number, folder):
    """Whether a process has a file of this folder open, with a name or without."""
    with contextlib.suppress(OSError):
        return any(os.path.dirname(os.readlink(link)) == os.path.realpath(folder) for link in Path('/proc/%d/fd' % number).iterdir())
    return False


def check_recordings(check, folder):
    """What `live` records begins new files, or overwrites them with --force; pipes and devices are written as they are."""
    log, kept, other = written(folder, 'log', GOOD), written(folder, 'kept', b'evidence'), os.path.join(folder, 'other')
    for name in ('--transcript', '--pcapng'):
        status, _, err = run('live', '--fifo', log, name, kept)
        check.equal('live %s over a file' % name, (2, b'evidence', 1), (status, state(kept)[0], len(err.splitlines())))
    check.equal('two recordings in one file', 2, run('live', '--fifo', log, '--transcript', other, '--pcapng', other)[0])
    check.equal('a new recording', (0, GOOD), (run('live', '-q', '--fifo', log, '--transcript', other)[0], state(other)[0]))
    check.equal('--force', (0, GOOD), (run('live', '-q', '--fifo', log, '--transcript', kept, '--force')[0], state(kept)[0]))
    for name in ('/dev/null', '/dev/stdout'):
        status, out, _ = run('live', '-q', '--fifo', log, '--transcript', name)
        check.equal('live --transcript ' + name, (0, name == '/dev/stdout'), (status, GOOD in out))
    for command, *words in (('convert', '--to', 'transcript', log, '-o'), ('live', '-q', '--fifo', log, '--transcript')):
        status, out, _ = run(command, *words, '/dev/stdout')
        check.equal('%s into /dev/stdout' % command, (0, True), (status, GOOD in out))
        pipe = os.path.join(folder, 'pipe-' + command)
        os.mkfifo(pipe)
        with subprocess.Popen(['cat', pipe], stdout=subprocess.PIPE) as reader:
            status = run(command, *words, pipe)[0]
            check.equal('%s into a pipe' % command, (0, GOOD), (status, reader.communicate(timeout=LONGEST)[0]))
    for name in ('--exec', '--serial', '--fifo'):
        status, _, err = run('live', name, '')
        check.equal('live %s without a name' % name, (2, 1), (status, len(err.splitlines())))


def check_full(check, folder):
    """A full disk, and a read that fails, are said in one line that names the file."""
    log, full = written(folder, 'log', GOOD), ': No space left on device\n'
    for words in (['decode', '-q', log], ['decode', '--json', '-q', log], ['stats', log], ['check', '-q', log], ['record', '-q', log], ['plan', '--inputs', '8', '--filter', '5'],
                  ['convert', '-q', '--to', 'vcd', log], ['convert', '-q', '--to', 'pcapng', log], ['live', '--fifo', log], ['check', log, log]):
        check.equal('a full disk: ' + words[0], (3, 'fiolog: standard output' + full), run_on_full_disk(*words))
    for words in (['convert', '--to', 'frames', '-o', '/dev/full', log], ['record', '--hires', '/dev/full', *EVENTS, log], ['live', '-q', '--fifo', log, '--pcapng', '/dev/full'],
                  ['live', '-q', '--fifo', log, '--transcript', '/dev/full']):
        status, _, err = run(*words)
        check.equal('%s into a full disk' % words[0], (3, 'fiolog: /dev/full' + full), (status, err.decode()))
    for tool, words, text, status in (('tools/transcript', [], b'0 quiet\n', 3), ('fio2070-test', ['--self', 'module', '1000'], b'', 2)):
        path = os.path.join(TOP, *tool.split('/'))
        if not os.path.exists(path):
            check.skip('a full disk: ' + tool, 'it is not built here (make library)')
            continue
        got, err = run_on_full_disk(*words, tool=[path], text=text)
        check.equal('a full disk: ' + tool, (status, True), (got, err.endswith('standard output' + full)))
    check.equal('a read that fails', (3, b'fiolog: /proc/self/mem: Input/output error\n'), run('decode', '/proc/self/mem')[::2])
    status, out, err = run('check', log, '/proc/self/mem')
    check.equal('a read of many that fails', (3, True, b'fiolog: /proc/self/mem: Input/output error\n'), (status, b'all 1 ' in out, err))


def check_tools(check, folder):
    """The tools beside it: noise on standard input, a file that is not there, a capture over its text."""
    def run_tool(name, *words, **settings):
        return run(*words, tool=[os.path.join(TOP, 'tools', name)], folder=folder, **settings)
    for name in ('transcript',):
        for text in (b'\xff\xfe\x1b]0;x\x07\n', b'', b'\0' * 70000):
            status, out, err = run_tool(name, text=text, PYTHONIOENCODING='utf-8:strict')
            check.equal('%s of noise' % name, (1, False, None), (status, b'Traceback' in err, ACTS.search((out + err).decode())))
    check.equal('transcript of no script', (3, b'transcript: none: No such file or directory\n'), run_tool('transcript', 'none')[::2])
    log = written(folder, 'frames', GOOD)
    check.equal('hex2pcap over its text', (2, GOOD), (run_tool('wireshark/hex2pcap', log, log)[0], state(log)[0]))


def seconds_of(*words, text):
    """The seconds of a processor that a run takes."""
    before = used()
    run(*words, text=text)
    return used() - before


def check_long(check):
    """Long lines take time in proportion; what is sought in them is found, and no cut makes a frame."""
    for name, words, line in (('letters', [], b'a '), ('octets', [], b'36 '), ('blanks', [], b' '), ('--pattern', ['--pattern', r'(?P<octets>(?:[0-9a-f]{2} *)+)\s*$'], b'36 '),
                              ('colours', [], b'\x1b[')):
        lines = (b'36 ' + line * 20000 + b'x\n') * 4
        check.holds('long lines: ' + name, seconds_of('decode', '-q', *words, text=lines) < 20, 'too slow')
    for name, text in (('a plain line', b'TX 3605;' + b'y' * 100), ('a long line', b'TX 3605;' + b'y' * 20000)):
        check.holds('a pattern finds the beginning of %s' % name, b'poll block 5' in run('decode', '--pattern', r'^TX (?P<octets>\w+);', text=text)[1])
    status, out, err = run('decode', '-v', '--pattern', r'(?P<octets>[0-9a-f]+)$', text=b'z' * 8188 + b'3605' + b'11\n3605\n')
    check.equal('a cut makes no frame', (['2'], True), (re.findall(r'^(\d+):', out.decode(), re.M), b'line 1: longer than' in err))
    for words, text in (([r'(?P<octets>zz)?'], b'3605\n'), ([r'(?P<time>\S+) (?P<octets>\w+)'], b'99999999999999 3605\n'), (['(?P<octets>a{99999999999})'], b'')):
        check.holds('the pattern ' + words[0], b'Traceback' not in run('decode', '--pattern', *words, text=text)[2])


def children(number):
    """The processes that a process began."""
    with contextlib.suppress(OSError):
        return [int(word) for word in Path('/proc/%d/task/%d/children' % (number, number)).read_text().split()]
    return []


def writer_of(pipe):
    """The descriptor of the end of a named pipe that is written, or None if nobody reads there."""
    with contextlib.suppress(OSError):
        return os.open(pipe, os.O_WRONLY | os.O_NONBLOCK)
    return None


def at_pipe(command, pipe):
    """Waits until a process of a command reads this pipe, and all else that it had to do is done; or until it has ended. Returns the writer."""
    writer = until(lambda: writer_of(pipe) or command.poll() is not None)
    until(lambda: all([sleeps(child) for child in children(command.pid)]) and sleeps(command.pid))
    return writer


def check_many(check, folder):
    """Of many logs each fault is a line, and the rows of the others are written."""
    logs, pipe = [written(folder, '%d.log' % number, GOOD) for number in range(3)], os.path.join(folder, 'pipe')
    os.mkfifo(pipe)
    for jobs, status, count in (('0', 2, 1), ('-3', 2, 1), ('x', 2, 1), ('5000', 0, 0), ('1', 0, 0)):
        done = run('check', '--jobs', jobs, *logs)
        check.equal('--jobs ' + jobs, (status, count, status == 0), (done[0], len(done[2].splitlines()), b'all 3 ' in done[1]))
    done = run('check', logs[0], '-', text=GOOD)
    check.equal('standard input among many', (0, b''), (done[0], done[2]))
    command = started('check', '--jobs', '2', *logs, pipe)

    while command.poll() is None:
        writer = at_pipe(command, pipe)
        for child in children(command.pid):
            with contextlib.suppress(OSError):
                os.kill(child, signal.SIGKILL)
        if command.poll() is None:
            os.close(writer)
    out, err = command.communicate(timeout=LONGEST)
    check.equal('a process that dies', (3, True, 'fiolog: %s: the process that read it died\n' % pipe), (command.returncode, b'all 3 ' in out, err.decode()))
    for number in (signal.SIGINT, signal.SIGTERM):
        command = started('check', '--jobs', '2', *logs, pipe)
        writer = at_pipe(command, pipe)
        command.send_signal(number)
        out, err = command.communicate(timeout=LONGEST)
        os.close(writer)
        check.equal('%s keeps the rows' % number.name, (130, True, 'fiolog: ended: 3 of 4 logs were read\n'), (command.returncode, b'all 3 ' in out, err.decode()))


def is_running(number):
    """Whether a process is there, and has not ended."""
    with contextlib.suppress(OSError):
        return Path('/proc/%d/stat' % number).read_text().rsplit(')', 1)[1].split()[0] != 'Z'
    return False


def check_killed(check, folder):
    """What reads many logs ends with the command, however that ends; no signal is lost while its processes begin."""
    pipes = [os.path.join(folder, 'pipe%d' % number) for number in range(3)]
    for pipe in pipes:
        os.mkfifo(pipe)
    command = started('check', '--jobs', '3', *pipes)
    until(lambda: len(children(command.pid)) == 3)
    readers = children(command.pid)
    time.sleep(1)
    command.kill()
    command.communicate(timeout=LONGEST)
    until(lambda: not any(map(is_running, readers)))
    check.equal('a killed command: its processes end', (3, []), (len(readers), [number for number in readers if is_running(number)]))
    for reader in filter(is_running, readers):
        os.kill(reader, signal.SIGKILL)
    dice, wrong = random.Random(1), []
    for _ in range(100 if check.given.all else 20):
        number = dice.choice((signal.SIGINT, signal.SIGTERM, signal.SIGHUP))
        command = started('check', '--jobs', '3', *pipes)
        until(lambda it=command: children(it.pid))
        time.sleep(dice.uniform(0, 0.02))
        command.send_signal(number)
        err = command.communicate(timeout=LONGEST)[1]
        if command.returncode != 130 or err != b'fiolog: ended: 0 of 3 logs were read\n':
            wrong.append((number.name, command.returncode, err[-300:]))
    check.equal('signals while processes begin', [], wrong)


def check_start(check, folder):
    """While Python and the modules of the command come, what ends it does so at once, without a word; then the status says so."""
    for name in ('sitecustomize', 'argparse'):
        hold = os.path.join(folder, name)
        os.mkdir(hold)
        written(hold, name + '.py', 'import sys, time\nprint("here", file=sys.stderr, flush=True)\ntime.sleep(600)\n')
        for launcher in ([LAUNCHER], [sys.executable, '-c', LAUNCHER_OF_PIP])[:1 if name == 'sitecustomize' else 2]:
            command = subprocess.Popen([*launcher, 'check', '-'], stdin=subprocess.DEVNULL, stderr=subprocess.PIPE,
                                       env={**ENVIRONMENT, 'PYTHONPATH': os.pathsep.join((hold, PACKAGES))})
            begun = command.stderr.readline()
            command.send_signal(signal.SIGINT)
            err = command.communicate(timeout=LONGEST)[1]
            check.equal('Ctrl-C while %s comes' % name, (b'here\n', -signal.SIGINT, b''), (begun, command.returncode, err))
    for number in (signal.SIGINT, signal.SIGTERM, signal.SIGHUP):
        command = started('decode', '-q', '--format', 'transcript')
        command.stdin.write(GOOD)
        command.stdin.flush()
        command.stdout.readline()
        command.send_signal(number)
        err = command.communicate(timeout=LONGEST)[1]
        check.equal('%s while it reads' % number.name, (130, b''), (command.returncode, err))


def check_odd(check, folder):
    """Other files: empty ones, folders, files that may not be read, NUL octets, no line end, broken pipes."""
    open_end = written(folder, 'open-end', GOOD[:-1])
    files = (('an empty file', written(folder, 'empty', b''), (LITTLE,)), ('zeros', written(folder, 'zeros', bytes(200_000)), (LITTLE,)),
             ('no line end', open_end, (0, 1, LITTLE)), ('a folder', folder, (3,)), ('no file', 'none', (3,)))
    for words in COMMANDS if check.whole('odd files by all commands') else COMMANDS[::4]:
        for name, path, expected in files:
            status, _, err = run_as_is(*words, path)
            check.holds('%s of %s' % (' '.join(words), name), status in expected and b'Traceback' not in err, err)
    check.equal('a reader that has enough', b'', run_of_shell('decode -q %s | head -n 1' % ' '.join([open_end] * 500))[2])
    command = started('decode', '-q', '--format', 'transcript')
    command.stdin.write(GOOD)
    command.stdin.flush()
    command.stdout.readline()
    command.stdout.close()
    command.send_signal(signal.SIGINT)
    command.stdin.close()
    check.equal('Ctrl-C, and nobody reads any more', (130, b''), (command.wait(LONGEST), command.stderr.read()))
    command.stderr.close()


def main():
    check = Check()
    # A shell that runs this in the background has it ignore Ctrl-C, and what it starts would too.
    signal.signal(signal.SIGINT, signal.default_int_handler)
    use_library(check, 'outputs of fiolog')
    for part in (check_locales, check_shown, check_evidence, check_recordings, check_full, check_tools, check_many, check_killed, check_start,
                 check_odd):
        with tempfile.TemporaryDirectory() as folder:
            part(check, folder)
    check_long(check)
    check.end()


main()
