#!/usr/bin/env -S python3 -B
"""Types lines with a tab in them into bash, zsh and fish, each on a terminal of its own, and compares what the completed
command prints. The completions are those that `make install` puts into a new folder. A shell that is not installed is
skipped, as a line says. Last line: `N passed, M failed`."""

import os
import pty
import re
import select
import shutil
import signal
import subprocess
import tempfile
import time

from support.check import Check
from support.tables import TOP, can_simulate

# How each shell is started without the user's own settings, and how it reads the completions; {} is the folder into which
# the program was installed.
SHELLS = {
    'bash': (['bash', '--norc', '--noprofile', '-i'],
             'for file in {}/share/bash-completion/completions/*; do . "$file"; done'),
    'zsh': (['zsh', '-f', '-i'],
            'fpath=({}/share/zsh/site-functions $fpath); autoload -U compinit; compinit -u -D'),
    'fish': (['fish', '--no-config', '-i'],
             'for file in {}/share/fish/vendor_completions.d/*; source $file; end'),
}

# Lines as they are typed, and what the completed command prints. The folder has the files captured.frames and
# healthy.script.
LINES = [
    ('fio2070 show < capt\t', 'poll block 5'),
    ('fio2070 show <capt\t', 'poll block 5'),
    ('fio2070 sh\t< captured.frames', 'poll block 5'),
    ('fio2070 sim\t< heal\t', 'counter 0'),
    ('fio2070 check --h\t', 'Usage: fio2070 check'),
    ('fio2070 --ver\t', 'fio2070 1.'),
    ('fiolog --vers\t', 'libfio2070 1.'),
    ('fiolog capt\t-q', 'frames 2'),
    ('fiolog deco\t-q capt\t', '> poll block 5'),
    ('fiolog convert --to fra\tcapt\t', '3605'),
    ('fiolog stats --form\tfra\tcapt\t', 'answers lost'),
    ('fiolog pla\t--inp\t64 --fil\t5', 'inputs'),
    ('fio2070-test --self mod\t2000', 'no difference'),
]

SECONDS = 300


class Terminal:
    """A shell on a terminal of its own."""

    def __init__(self, words, folder, path):
        self.process, self.terminal = pty.fork()
        if self.process == 0:
            os.chdir(folder)
            os.execvpe(words[0], words, dict(os.environ, PATH=path, HOME=folder, TERM='dumb', LC_ALL='C.UTF-8'))

    def read_until(self, expected):
        """What the shell prints up to a text, or in `SECONDS`."""
        found, end = '', time.monotonic() + SECONDS
        while expected not in found and time.monotonic() < end:
            if select.select([self.terminal], [], [], 0.2)[0]:
                try:
                    found += os.read(self.terminal, 4096).decode('utf-8', 'replace')
                except OSError:
                    break
        return found

    def run(self, line, number):
        """What the shell prints for a typed line; the sum after it shows that the command ended."""
        for part in re.split('(\t)', line):
            os.write(self.terminal, part.encode())
            time.sleep(0.5 if part == '\t' else 0.05)
        os.write(self.terminal, b'\r')
        os.write(self.terminal, b'expr %d + 1000000\r' % number)
        return self.read_until('%d' % (number + 1000000))

    def close(self):
        os.close(self.terminal)
        try:
            os.kill(self.process, signal.SIGKILL)
        except ProcessLookupError:
            pass
        os.waitpid(self.process, 0)


def install(prefix):
    """Installs the program into a folder."""
    clean = {name: word for name, word in os.environ.items()
             if name not in ('MAKEFLAGS', 'MAKELEVEL', 'PREFIX', 'DESTDIR')}
    subprocess.run(['make', '-s', '-C', TOP, 'install', 'PREFIX=' + prefix], env=clean, check=True,
                   stdout=subprocess.DEVNULL)


def try_shell(check, name, prefix, folder):
    """A row for each of the lines: the command that a shell completes prints the text."""
    words, setting = SHELLS[name]
    if not check.has_terminal('completions of ' + name):
        return
    path = os.path.join(prefix, 'bin') + os.pathsep + os.environ.get('PATH', os.defpath)
    shell = Terminal(words, folder, path)
    try:
        shell.run(setting.format(prefix), 1)
        for number, (line, expected) in enumerate(LINES, 2):
            if line.startswith('fio2070 ') and not can_simulate():
                continue
            row = '%s completes %r' % (name, line)
            if check.wants(row):
                printed = shell.run(line, number)
                check.equal(row, expected, expected if expected in printed else printed)
    finally:
        shell.close()


def main():
    check = Check()
    with tempfile.TemporaryDirectory() as room:
        prefix, folder = os.path.join(room, 'installed'), os.path.join(room, 'files')
        install(prefix)
        os.mkdir(folder)
        with open(os.path.join(folder, 'captured.frames'), 'w', encoding='ascii') as frames:
            frames.write('3605\nB6050000000003E8\n')
        with open(os.path.join(folder, 'healthy.script'), 'w', encoding='ascii') as script:
            script.write('fio2070 script 1 2 0\n')
        for name in SHELLS:
            if shutil.which(name) is None:
                check.skip('%s completes' % name, 'it is not installed (Debian package %s)' % name)
            else:
                try_shell(check, name, prefix, folder)
    check.end()


main()
