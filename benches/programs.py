"""The program, another implementation of it, and what a run of either costs."""

import os
import re
import shlex
import shutil
import statistics
import subprocess
import tempfile
from pathlib import Path

TOP = Path(__file__).resolve().parent.parent
RUNNER = Path(__file__).resolve().parent / 'run.c'
COLLECTED = re.compile(r'Collected : (\d+)')
# A function's share in the lines of callgrind_annotate.
SHARE = re.compile(r'^ *[\d,]+ \( ?([\d.]+)%\)  [^ ]*?:([^/]+?)(?: \[[^]]*\])?$', re.M)


class Failed(Exception):
    """A command failed, and so there is nothing to report."""


def succeed(command, **options):
    """What a command writes to standard output. It has to end with status 0."""
    try:
        done = subprocess.run([str(word) for word in command], capture_output=True, text=True, check=False, **options)
    except OSError as fault:
        raise Failed(f'{command[0]}: {fault.strerror}') from fault
    if done.returncode != 0:
        raise Failed(f'{shlex.join(str(word) for word in command)}\n{done.stdout}{done.stderr}')
    return done.stdout


def build_ours():
    """The program of this repository: with the kit the one that is built here, which has the names of functions."""
    return Path(succeed([TOP / 'packaging/program', '--built' if shutil.which('rt') else '--proved']).rstrip('\n'))


def build_peer(folder):
    """The program of a Cargo workspace with the crate `fio2070`, hexadecimal text by the crate `hex`."""
    succeed(['cargo', 'build', '--release', '-p', 'fio2070', '--features', 'fio2070/crate-hex'], cwd=folder)
    return Path(folder).resolve() / 'target/release/fio2070'


def plain_name(name):
    """The name of a function without the hash of its types, or without what processor a C function is for."""
    return re.sub(r'^__(mem\w+?)_(?:avx|sse|evex).*', r'\1', re.sub(r'::<#\w+>', '', name))


class Bench:
    """Measures runs of programs. A run has one word and an input."""

    def __init__(self, folder):
        self.folder = Path(folder)
        self.runner = self.folder / 'run'
        self.notes = self.folder / 'callgrind.out'
        compiler = shlex.split(os.environ.get('CC') or 'cc')
        succeed([*compiler, '-O2', '-o', self.runner, RUNNER])

    def keep(self, name, text):
        """A file with this text."""
        path = self.folder / f'{name}.in'
        path.write_text(text)
        return path

    def instructions(self, program, word, path):
        """How many instructions a run takes, or `None` if there is no valgrind."""
        if shutil.which('valgrind') is None:
            return None
        notes = self.notes
        command = ['valgrind', '--tool=callgrind', f'--callgrind-out-file={notes}', program, word]
        with path.open() as text:
            done = subprocess.run(command, stdin=text, stdout=subprocess.DEVNULL, stderr=subprocess.PIPE, text=True,
                                  check=False)
        found = COLLECTED.search(done.stderr)
        if found is None:
            raise Failed(f'{shlex.join(map(str, command))}\n{done.stderr}')
        return int(found.group(1))

    def shares(self):
        """The functions of the run that was counted last, with their shares of its instructions in percent."""
        text = succeed(['callgrind_annotate', '--show-percs=yes', self.notes])
        return [(float(share), plain_name(name)) for share, name in SHARE.findall(text)]

    def times(self, programs, word, path, rounds):
        """The median of a run's milliseconds, and of the most memory that it holds in MB, for each of the programs, whose
        runs alternate."""
        runs = [[] for _ in programs]
        for _ in range(rounds):
            for place, program in enumerate(programs):
                line = succeed([self.runner, path, 1, program, word])
                runs[place].append([int(number) for number in line.split()])
        return [(statistics.median(run[0] for run in some) / 1e6,
                 statistics.median(run[1] for run in some) * 1024 / 1e6) for some in runs]


def folder_for_work():
    """A folder that lasts until the next start of the machine, so that a second call builds less."""
    folder = Path(tempfile.gettempdir()) / f'fio2070-bench-{os.getuid()}'
    folder.mkdir(exist_ok=True)
    return folder
