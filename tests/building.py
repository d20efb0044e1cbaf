#!/usr/bin/env -S python3 -B
"""What `./build` says while it builds the program, and if it cannot: what it will prove, a line for each crate, and one clear
line for each thing that is missing. Crates that do not wait for each other are proved side by side. A short script takes the place
of `rt`, in a repository of five crates. And which program `./fio2070` runs, which proves nothing: the one that was built here, that
of dist/, or one that is compiled of dist/fio2070.c; scripts take the place of these too. Last line: `N passed, M failed`."""

import hashlib
import os
import re
import shutil
import subprocess
import tempfile
import time
from pathlib import Path

from support.check import Check
from support.tables import TOP
from support.waits import LONGEST

CRATES = 'low:\nhigh: low hex\nbeside: low\nfio2070: high beside\nother: low\n'

# Proves nothing. Writes what rt writes, for the program also of a library that it proves before, fails in the crate that FAILS
# names, waits in those that MEETS names until all of these have begun, and writes nothing for a library that was proved before.
RT = r"""#!/bin/sh
crate=$(basename "$PWD")
if [ -e out/rlib ] && [ -z "$(find src -newer out/rlib)" ]; then exit 0; fi
echo "so far: 3 of 10 functions checked"
mktemp >/dev/null
mkdir -p out
touch out/begun
case " $MEETS " in *" $crate "*) for other in $MEETS; do
    for _ in $(seq 500); do [ -e "../$other/out/begun" ] || sleep 0.5; done
    [ -e "../$other/out/begun" ] || exit 1
done ;; esac
if [ "$crate" = "$FAILS" ]; then echo 'logic=not-proved'; exit 1; fi
if [ "$crate" = fio2070 ]; then echo 'logic=proved functions=27 of=library'; fi
echo 'logic=proved functions=10'
if [ "$crate" != fio2070 ]; then
    touch out/rlib
else
    printf '#!/bin/sh\necho "run $*"\n' >out/fio2070
    chmod 755 out/fio2070
fi
"""


class Clone:
    """A repository whose program is not built, with a folder of its own for temporary files."""

    def __init__(self, room, name):
        self.top = os.path.join(room, name)
        self.temporary = os.path.join(self.top, 'temporary')
        crates = ('crates/%s/src' % crate for crate in ('low', 'high', 'beside', 'other', 'fio2070'))
        for folder in ('bin', 'temporary', 'packaging', *crates):
            os.makedirs(os.path.join(self.top, folder))
        for file in ('fio2070', 'build', 'packaging/program', 'packaging/listed', 'packaging/hardening'):
            shutil.copy(os.path.join(TOP, file), os.path.join(self.top, file))
        self.write('crates.txt', CRATES)
        self.write('bin/rt', RT, 0o755)

    def write(self, name, text, mode=0o644):
        path = os.path.join(self.top, name)
        os.makedirs(os.path.dirname(path), exist_ok=True)
        with open(path, 'w', encoding='ascii') as file:
            file.write(text)
        os.chmod(path, mode)

    def read(self, name):
        with open(os.path.join(self.top, name), encoding='utf-8') as file:
            return file.read()

    def environment(self, **settings):
        path = os.path.join(self.top, 'bin') + os.pathsep + os.environ.get('PATH', os.defpath)
        return {**os.environ, 'PATH': path, 'TMPDIR': self.temporary, **settings}

    def call(self, command, *words, **settings):
        """What a command of the repository writes, on standard error too, and how it ends."""
        done = subprocess.run([os.path.join(self.top, command), *words], env=self.environment(**settings),
                              stdin=subprocess.DEVNULL, capture_output=True, text=True, timeout=LONGEST)
        return done.stdout, done.stderr, done.returncode

    def run(self, *words, **settings):
        """The same of `./fio2070`."""
        return self.call('fio2070', *words, **settings)

    def has_program(self):
        return os.path.exists(os.path.join(self.top, 'crates/fio2070/out/fio2070'))

    def is_tidy(self):
        """Whether no temporary file is left."""
        return os.listdir(self.temporary) == []


def one_line(text, *words):
    """Whether a text is one line with these words."""
    return re.fullmatch('fio2070: [^\n]*\n', text) is not None and all(word in text for word in words)


def proved_in(said):
    """How many crates are proved by each line after the first."""
    return [int(count) for count in re.findall(r'^fio2070: (\d+) of \d+ crates proved', said, re.M)]


def try_build(check, room):
    """A first build, a further run, and a build after an edit, without a terminal."""
    clone = Clone(room, 'plain')
    text, said, status = clone.run('show', 'x')
    check.holds('there is no program yet', (text, status) == ('', 125) and one_line(said, './build'), said)
    check.holds('nothing is proved for it', not os.path.exists(os.path.join(clone.top, 'crates/low/out')))
    text, said, status = clone.call('build')
    check.equal('the program is built', ('', 0), (text, status))
    check.equal('the program runs', ('run show x\n', '', 0), clone.run('show', 'x'))
    check.holds('what will be done', re.match(r'fio2070: proving 4 crates, up to \d+ side by side; ', said) is not None, said)
    check.equal('a line a crate', [1, 2, 3, 4], proved_in(said))
    for crate in ('low', 'high', 'beside', 'fio2070'):
        check.equal('the log of %s has what rt wrote' % crate, 1 + (crate == 'fio2070'),
                    clone.read('crates/%s/out/build.log' % crate).count('logic=proved'))
        check.equal('the proof of %s is its own line' % crate, 'logic=proved functions=10\n', clone.read('crates/%s/out/proof' % crate))
    check.holds('no temporary file', clone.is_tidy())
    time.sleep(0.1)
    clone.write('crates/low/src/lib.rt', '\n')
    said = clone.call('build')[1]
    check.holds('after an edit what changed is built again', proved_in(said) == [1, 4], said)


def try_side_by_side(check, room):
    """Two crates that do not wait for each other: each of them waits here for the other to begin."""
    if len(os.sched_getaffinity(0)) < 2:
        check.skip('crates side by side', 'there is one processor')
        return
    clone = Clone(room, 'beside')
    _, said, status = clone.call('build', MEETS='high beside')
    check.holds('crates are proved side by side', status == 0, said)


def try_faults(check, room):
    """What is missing or fails is said in one line, with nothing on standard output."""
    clone = Clone(room, 'faults')
    text, said, status = clone.call('build', FAILS='high')
    check.holds('a crate that is not proved', (text, status) == ('', 1)
                and one_line(said.splitlines(True)[-1], 'high', 'high/out/build.log'), said)
    check.holds('no program', not clone.has_program())
    check.holds('no temporary file after a failure', clone.is_tidy())
    tools = os.path.join(clone.top, 'tools')
    os.mkdir(tools)
    for name in ('sh', 'env', 'readlink', 'dirname', 'find', 'head'):
        os.symlink(os.path.realpath(shutil.which(name)), os.path.join(tools, name))
    os.symlink(os.path.join(clone.top, 'bin/rt'), os.path.join(tools, 'rt'))
    text, said, status = clone.call('packaging/program', '--proved', PATH=tools)
    check.holds('no python3', (text, status) == ('', 1) and one_line(said, 'no command python3'), said)
    os.remove(os.path.join(tools, 'rt'))
    text, said, status = clone.run('show', PATH=tools)
    check.holds('no rt', (text, status) == ('', 125) and one_line(said, 'no command rt', 'README.md'), said)


# In the place of the program of dist/, and of one that a compiler makes.
KEPT = '#!/bin/sh\ncase $1 in --version) echo "fio2070 9.0.0" ;; *) echo "kept $*" ;; esac\n'
COMPILER = """#!/bin/sh
case $1 in -dumpmachine) exit ;; esac
while [ "$1" != -o ]; do shift; done
printf '%s\\n' '#!/bin/sh' 'echo "compiled $*"' >"$2" && chmod 755 "$2"
"""
BUILT = ' built here'
OF_THESE, OF_OTHERS, NOT_HERE = ' of dist/, made of these sources', ' of dist/, made of other sources', 'does not run on this machine'


class Choice(Clone):
    """A repository with a program in dist/, made of its sources."""

    def __init__(self, room, name):
        super().__init__(room, name)
        self.write('crates/low/specs/Low.antt', 'one\n')
        for file in ('crates/high/src/lib.rt', 'dist/fio2070.c', 'dist/fio2070.h', 'tools/without-kit/main.c'):
            self.write(file, '')
        self.write('dist/fio2070-x86_64-linux-gnu', KEPT, 0o755)
        self.write('dist/fio2070-x86_64-linux-gnu.sources', self.call('packaging/program', '--sources')[0])
        self.list()

    def list(self):
        """Lists the files of dist/ as they are now."""
        paths = sorted(Path(self.top, 'dist').glob('fio2070*'))
        self.write('dist/SHA256SUMS', ''.join('%s  %s\n' % (hashlib.sha256(path.read_bytes()).hexdigest(), path.name) for path in paths))

    def path(self, **commands):
        """A PATH with the commands of coreutils, findutils, sed and diffutils that the choice needs, and with these."""
        folder = tempfile.mkdtemp(dir=self.top)
        for name in 'sh cmp find sed xargs cat chmod cut dirname env head ls mkdir mktemp mv readlink rm sha256sum sort uname'.split():
            if name not in commands:
                os.symlink(shutil.which(name), os.path.join(folder, name))
        for name, text in commands.items():
            self.write(os.path.join(folder, name), text, 0o755)
        return folder


def choice(check, name, clone, expected, said, **settings):
    """A row: what `./fio2070` runs, and what it says on standard error."""
    text, errors, status = clone.run('show', **settings)
    check.equal(name, (expected, 0, said != ''), (text, status, errors != ''))
    check.holds(name + ', as it says', said in errors and errors.count('\n') <= 4, errors)
    check.holds(name + ', by --version', said in clone.run('--version', **settings)[1])


def try_choice(check, room):
    """Which program is run, with the kit and without it, of the same, changed and added sources."""
    clone = Choice(room, 'choice')
    alone, kit = {'PATH': clone.path()}, {'PATH': clone.path(rt=RT) + os.pathsep + os.environ.get('PATH', os.defpath)}
    for words in (alone, kit):
        check.equal('the program of dist/ runs at once', ('kept show\n', '', 0), clone.run('show', **words))
        text, said, _ = clone.run('--version', **words)
        check.equal('--version says which program it is', ('fio2070 9.0.0\n', True, 1), (text, OF_THESE in said, said.count('\n')))
    clone.write('crates/other/src/other.rt', 'a crate that the program does not use\n')
    clone.write('crates/low/proofs/Low.antt', 'a proof\n')
    check.equal('what it is not made of', ('kept show\n', '', 0), clone.run('show', **alone))
    clone.write('crates/low/specs/Low.antt', 'two\n')
    choice(check, 'a changed source', clone, 'kept show\n', OF_OTHERS, **alone)
    choice(check, 'a changed source, a second time', clone, 'kept show\n', OF_OTHERS, **alone)
    clone.write('crates/low/specs/Low.antt', 'one\n')
    check.equal('a source that is as it was', ('kept show\n', '', 0), clone.run('show', **alone))
    clone.write('crates/high/src/added.rt', '')
    choice(check, 'an added source', clone, 'kept show\n', OF_OTHERS, **alone)
    choice(check, 'an added source and the kit', clone, 'kept show\n', OF_OTHERS, **kit)
    check.holds('nothing is proved to run a program', not Path(clone.top, 'crates/low/out').exists())
    text, said, status = clone.call('packaging/program', '--proved', **kit)
    check.equal('changed sources and the kit, asked for a proved one', (True, 0, True), (text.endswith('out/fio2070\n'), status, 'proving 4 crates' in said))
    check.holds('--version says that it was built', BUILT in clone.run('--version', **alone)[1])
    os.remove(os.path.join(clone.top, 'crates/high/src/added.rt'))
    clone.call('build')
    check.equal('what was built goes before dist/', ('run show\n', '', 0), clone.run('show', **alone))


def try_sums(check, room):
    """A program of dist/ is run if it is as listed; if nothing lists it, --version says so."""
    clone = Choice(room, 'sums')
    kit, alone = {'PATH': clone.path(rt=RT) + os.pathsep + os.environ.get('PATH', os.defpath)}, {'PATH': clone.path()}
    check.holds('as listed', clone.run('--version', **alone)[1].endswith(OF_THESE + ', as listed in dist/SHA256SUMS\n'))
    sums = Path(clone.top, 'dist/SHA256SUMS')
    for name, text in (('no list', ''), ('a list without it', 'f' * 64 + '  other\n')):
        sums.write_text(text, encoding='ascii')
        check.equal(name, ('kept show\n', '', 0), clone.run('show', **alone))
        check.holds(name + ', as --version says', clone.run('--version', **alone)[1].endswith(', which no dist/SHA256SUMS lists\n'))
    clone.list()
    for name, path, text in (('a changed program', 'dist/fio2070-x86_64-linux-gnu', KEPT + ': >%s/ran\n' % clone.top),
                             ('a changed list of sources', 'dist/fio2070-x86_64-linux-gnu.sources', '\n')):
        before = Path(clone.top, path).read_text(encoding='ascii')
        clone.write(path, text, 0o755)
        for words in ('show', '--version'):
            text, said, status = clone.run(words, **alone)
            check.holds('%s is not run: %s' % (name, words), (text, status) == ('', 125) and one_line(said, path, 'not as listed'), (text, said))
        check.equal(name + ', a program that is proved', ('', 1), clone.call('packaging/program', '--proved', **alone)[::2])
        clone.write(path, before, 0o755)
    check.holds('it was not run either to look whether it runs', not Path(clone.top, 'ran').exists())
    clone.write('dist/fio2070-x86_64-linux-gnu', KEPT + '\n', 0o755)
    for words in ('show', '--version'):
        text, said, status = clone.run(words, **kit)
        check.holds('a changed program and the kit: ' + words, (text, status) == ('', 125) and one_line(said, 'not as listed'), (text, said))
    text, said, status = clone.call('packaging/program', '--proved', **kit)
    check.equal('a changed program and the kit, asked for a proved one', (True, 0, True), (text.endswith('out/fio2070\n'), status, 'proving 4 crates' in said))


def try_elsewhere(check, room):
    """Where the program of dist/ does not run, a compiler makes another, once."""
    for name, kept, commands in (('another processor', KEPT, {'uname': '#!/bin/sh\necho Linux aarch64\n'}),
                                 ('an older libc', '#!/bin/sh\necho "GLIBC_2.34 not found" >&2\nexit 1\n', {})):
        clone = Choice(room, name)
        clone.write('dist/fio2070-x86_64-linux-gnu', kept, 0o755)
        clone.list()
        path = clone.path(cc=COMPILER, **commands)
        text, said, status = clone.run('show', PATH=path)
        check.equal(name, ('compiled show\n', 0, 1), (text, status, said.count(NOT_HERE)))
        check.equal(name + ', a second time', ('compiled show\n', '', 0), clone.run('show', PATH=path))
        text, said, status = clone.call('packaging/program', '--proved', PATH=path)
        check.equal(name + ', asked for a proved one', ('', 2, True), (text, status, NOT_HERE in said))


def main():
    check = Check()
    with tempfile.TemporaryDirectory() as room:
        for part in (try_build, try_side_by_side, try_faults, try_choice, try_sums, try_elsewhere):
            part(check, room)
    check.end()


main()
