#!/usr/bin/env -S python3 -B
"""What `./test` runs and says: in a repository of four crates and three checks, where a short script takes the place of `rt`. What
it proves by the list tests/proved.sums and who writes that; which crates' wrong bodies are tried again by the list tests/tried.sums;
what failed, and how that is run by itself; a run that is ended; with a terminal, and without python3, make or a compiler. Last line:
`N passed, M failed`."""

import contextlib
import os
import re
import shutil
import signal
import subprocess
import tempfile

from support.check import Check
from support.functions import functions_in, sources_of
from support.tables import TOP
from support.waits import LONGEST

CRATES = 'low:\nhigh: low\nbeside: low hex\ntop: high\n'
# Proves nothing, and says of which crates that was asked.
RT = """#!/bin/sh
if [ "$1" = version ]; then echo kit-1 logic 1; exit; fi
if [ -e costs ]; then cd crates/low && timeout 3 sh -c 'while :; do :; done' --crate-name low; cd ../..; fi
echo "$*" >>words
if [ -e fails ]; then echo 'rt: low NOT PROVED'; echo '3 passed, 1 failed'; exit 1; fi
echo '4 passed, 0 failed'
"""
GOOD = "#!/bin/sh\necho 'skipped: a waveform: no viewer here'\nfor form in all release; do echo left to --$form: longer ones; done\necho '7 passed, 0 failed'\n"
BAD = "#!/bin/sh\nprintf 'FAILED a row with blanks\\n  expected: 1\\n  got: 2\\n1 passed, 1 failed\\n'\nexit 1\n"
SOURCES = '#!/bin/sh\necho 1234\n'


class Tree:
    """Such a repository, in a new folder."""

    def __init__(self, room, name):
        self.top = os.path.join(room, name)
        for folder in ('dist', 'bin', 'packaging', 'tests/support', *('crates/%s/src' % crate for crate in ('low', 'high', 'beside', 'top'))):
            os.makedirs(os.path.join(self.top, folder))
        shutil.copy(os.path.join(TOP, 'test'), self.top)
        shutil.copytree(os.path.join(TOP, 'tests/support/gate'), os.path.join(self.top, 'tests/support/gate'))
        for path, text in (('bin/rt', RT), ('tests/good.sh', GOOD), ('tests/other.sh', GOOD), ('packaging/program', SOURCES),
                           ('packaging/release-files', SOURCES), ('wrong-bodies/try', GOOD)):
            self.write(path, text, 0o755)
        for path, text in (('crates.txt', CRATES), ('Makefile', 'library:\n'), ('tests/costs', '# words\ngood 3 5\n'), ('dist/fio2070.c', 'Sources: 1234\n'),
                           ('dist/fio2070-x86_64-linux-gnu.sources', '1234\n'), ('crates/low/src/lib.rt', 'one\n')):
            self.write(path, text)

    def write(self, name, text, mode=0o644):
        path = os.path.join(self.top, name)
        os.makedirs(os.path.dirname(path), exist_ok=True)
        with open(path, 'w', encoding='utf-8') as file:
            file.write(text)
        os.chmod(path, mode)

    def environment(self, kit=True, path=None):
        return {**os.environ, 'PATH': os.pathsep.join([os.path.join(self.top, 'bin')] * kit + [path or without_kit()])}

    def test(self, *words, **settings):
        """What `./test` writes there, on both streams, and its status."""
        done = subprocess.run([os.path.join(self.top, 'test'), *words], env=self.environment(**settings), stdin=subprocess.DEVNULL,
                              stdout=subprocess.PIPE, stderr=subprocess.STDOUT, text=True, timeout=300, check=False)
        return done.stdout, done.returncode

    def asked(self):
        """What `rt` was asked since this was called last."""
        path = os.path.join(self.top, 'words')
        if not os.path.exists(path):
            return []
        with open(path, encoding='utf-8') as file:
            words = file.read().splitlines()
        os.remove(path)
        return words


def without_kit():
    """This PATH without the folders that have a kit."""
    return os.pathsep.join(one for one in os.environ['PATH'].split(os.pathsep) if not os.path.exists(os.path.join(one, 'rt')))


def check_list(check, room):
    """Only a run of all crates that passed writes the list; then what changed is proved, and what rests on it."""
    tree, path = Tree(room, 'list'), 'tests/proved.sums'
    text, status = tree.test()
    check.equal('without a list all crates are proved', (['ci low high beside top'], 0, True), (tree.asked(), status, 'no list' in text))
    text, status = tree.test('proofs')
    check.equal('the proofs fail without a list', (['ci'], 1, '4 passed, 1 failed'), (tree.asked(), status, text.splitlines()[-1]))
    tree.write('fails', '')
    tree.test('proofs', '--write')
    check.equal('what is not proved is not written', False, os.path.exists(os.path.join(tree.top, path)))
    os.remove(os.path.join(tree.top, 'fails'))
    text, status = tree.test('proofs', '--write')
    check.equal('what is proved is written', (0, '5 passed, 0 failed', True), (status, text.splitlines()[-1], os.path.exists(os.path.join(tree.top, path))))
    tree.asked()
    text, status = tree.test()
    check.equal('nothing is proved twice', ([], 0, True), (tree.asked(), status, '4 crates are as they were proved (kit kit-1 logic 1)' in text))
    tree.write('crates/low/out/lib.rt', 'made\n')
    check.equal('what is made does not count', [], (tree.test(), tree.asked())[1])
    tree.write('crates/high/src/lib.rt', 'another\n')
    text, status = tree.test()
    check.equal('what changed is proved, and what rests on it', (['ci high top'], 0, True), (tree.asked(), status, 'not as they were proved: high; on these rest top' in text))
    check.holds('that the list is to be written is left', 'tests/proved.sums is of these crates' in text.partition('left to ./test --all')[2], text)
    text, status = tree.test('proofs')
    check.equal('the proofs fail with another list', (['ci'], 1, True), (tree.asked(), status, 'it differs in high' in text))
    tree.test('proofs', '--write')
    tree.asked()
    tree.write('crates.txt', CRATES.replace('top: high', 'top: high beside'))
    check.equal('a line of crates.txt counts', ['ci top'], (tree.test(), tree.asked())[1])
    tree.write('crates.txt', CRATES)
    tree.write('bin/rt', RT.replace('kit-1', 'kit-2'), 0o755)
    check.equal('so does the kit', ['ci low high beside top'], (tree.test(), tree.asked())[1])
    tree.write('costs', '')
    tree.test('proofs', '--costs')
    tree.asked()
    with open(os.path.join(tree.top, 'tests/costs'), encoding='utf-8') as file:
        check.holds('what a crate costs', re.search(r'^proofs/low - [0-9]$', file.read(), re.M))
    text, status = tree.test(kit=False)
    check.equal('without the kit', ([], 0, True, True), (tree.asked(), status, '4 crates are as they were proved' in text, 'not run, since they need' in text))


MAKEFILE = """library:
	cp crates/fio_c/out/libfio_c.a libfio2070.a
crates/fio_c/out/libfio_c.a crates/fio_c/out/aarch64-unknown-linux-gnu/libfio_c.a:
	mkdir -p $(@D) && pwd >$@
wasm:
	mkdir -p crates/fio_c/out/wasm64-unknown-unknown && pwd >crates/fio_c/out/wasm64-unknown-unknown/fio_c.wasm
"""
# Says in which folder it is run, and with which words.
TELLS = '#!/bin/sh\ncd "$(dirname -- "$0")" && echo "$PWD $*" && echo "1 passed, 0 failed"\n'


def check_built(check, room):
    """All that a merge waits for, and sources that dist/ is not made of: the copy makes the library beside the proofs, and tries the wrong
    bodies."""
    tree = Tree(room, 'built')
    for path, text in (('tests/embedding.sh', TELLS), ('tests/portable.sh', TELLS), ('tests/portable-instructions.sh', TELLS), ('tests/release-files.sh', TELLS), ('wrong-bodies/try', TELLS),
                       ('tests/last.sh', '#!/bin/sh\ncat libfio2070.a\necho "1 passed, 0 failed"\n')):
        tree.write(path, text, 0o755)
    tree.write('tests/support/libraries.py', 'import sys\nopen("libraries", "a").write(" ".join(sys.argv[2:]) + "\\n")\n')
    tree.write('Makefile', MAKEFILE)
    tree.test('proofs', '--write')
    tree.asked()
    for words, which, ended in ((['--release'], set(), '26 passed, 0 failed'), (['--all'], {'--changed'}, '26 passed, 0 failed'),
                                ([], {'--edited'}, '25 passed, 0 failed')):
        if not words:
            tree.write('dist/fio2070.c', 'Sources: 5678\n')
            tree.write('crates/low/src/lib.rt', 'another\n')
        text, status = tree.test(*words)
        name = ' '.join(['./test', *words])
        check.equal(name + ': its end', (0, ended), (status, text.splitlines()[-1]))
        check.equal(name + ': what is proved', ['ci'], tree.asked())
        copied = re.findall(r'^(/\S+/copy/\S+) (.*)$', text, re.M)
        check.equal(name + ': what is run in the copy', 5, len(copied))
        check.holds(name + ': the wrong bodies', any(folder.endswith('/wrong-bodies') and {'--until', *which} == set(re.findall('--(?:until|changed|edited)', said))
                                                     for folder, said in copied), text)
        check.holds(name + ': the library is that of the copy', re.search(r'^/\S+/copy$', text, re.M), text)
    check.holds('what is said of dist/', 'dist/ is of other sources than these' in text, text)
    tree.write('Makefile', 'library wasm:\n\tfalse\ncrates/fio_c/out/libfio_c.a:\n\techo no memory; false\n')
    text, status = tree.test()
    check.equal('a library that cannot be made', (1, True, 5), (status, 'library: the archives are made\n  no memory' in text, len(re.findall(r'/copy/\S+ ', text))))


# Prints which crates are not as the list tests/tried.sums has them, and then writes it.
ASKED = """from support import stanzas, trials
crates = list(stanzas.crates_with_stanzas())
print(*trials.differing(crates))
trials.write({crate: trials.sum_of(crate) for crate in crates})
"""
# A function with a contract, which the body of another calls.
CALLED = """/// Returns the next number.
pub fn next(number: u8) -> u8
    ensures more {
        result ≡ number
    },
{
    number
}
"""
CALLING = 'use low::next;\n\npub fn second(number: u8) -> u8\n    ensures {\n        result ≡ number\n    },\n{\n    next(next(number))\n}\n'


class Tried:
    """Such a repository with other files, and the list tests/tried.sums."""

    def __init__(self, room, name, files):
        self.tree, self.files = Tree(room, name), {'bin/rt': RT, 'crates.txt': CRATES, **files}
        for module in ('functions', 'stanzas', 'trials'):
            shutil.copy(os.path.join(TOP, 'tests/support', module + '.py'), os.path.join(self.tree.top, 'tests/support'))

    def asked(self, name='', old='', new=''):
        """What is tried after this change of the files, of which it writes the list then."""
        for path, text in self.files.items():
            self.tree.write(path, text.replace(old, new, 1) if path == name else text, 0o755 if path == 'bin/rt' else 0o644)
        done = subprocess.run(['python3', '-B', '-c', ASKED], cwd=os.path.join(self.tree.top, 'tests'), env=self.tree.environment(),
                              stdout=subprocess.PIPE, text=True, check=True)
        return done.stdout.split()


def check_tried(check, room):
    """A change that a proof can see has the wrong bodies of the crates above tried again, one that it cannot see only those of the crate."""
    every = ['low', 'high', 'beside', 'top']
    tried = Tried(room, 'tried', {
        'crates/low/src/lib.rt': CALLED, 'crates/high/src/lib.rt': CALLING, 'crates/low/specs/Lib.antt': 'one : Nat\n', 'crates/low/must-fail/a.edit': 'src/lib.rt\n',
        'crates/low/proofs/Lemmas.antt': 'pub two : Nat\n', 'crates/low/proofs/next/Proof.antt': 'three\n',
        **{'wrong-bodies/%s.edits' % name: '# more\nold: number\nnew: 1\n' for name in every}})
    check.equal('tried: all without a list', every, tried.asked())
    for name, path, old, new, crates in (
            ('a contract', 'crates/low/src/lib.rt', 'ensures more {', 'ensures less {', every), ('a body', 'crates/low/src/lib.rt', '    number\n', '    5\n', ['low']),
            ('a private type', 'crates/low/src/lib.rt', '/// Ret', 'struct A;\n/// Ret', every), ('a remark', 'crates/low/src/lib.rt', 'Returns', 'Gives', []),
            ('a definition', 'crates/low/specs/Lib.antt', 'Nat', 'Bool', every), ('a remark on one', 'crates/low/specs/Lib.antt', 'one', '-- Two.\none', []),
            ('a lemma', 'crates/low/proofs/Lemmas.antt', 'Nat', 'Bool', every), ('the proof of a function', 'crates/low/proofs/next/Proof.antt', 'three', 'four', ['low']),
            ('an edit of must-fail', 'crates/low/must-fail/a.edit', 'lib', 'bil', ['low']), ('a body above', 'crates/high/src/lib.rt', 'next(next(number))', 'number', ['high']),
            ('a contract above', 'crates/high/src/lib.rt', 'ensures {', 'ensures more {', ['high', 'top']), ('a stanza', 'wrong-bodies/beside.edits', '1', '2', ['beside']),
            ('what a crate uses', 'crates.txt', 'top: high', 'top: high beside', ['top']), ('the kit', 'bin/rt', 'kit-1', 'kit-2', every)):
        check.equal('tried after a change of ' + name, crates, tried.asked(path, old, new))
        check.equal('tried after it is undone: ' + name, crates, tried.asked())


def check_tried_here(check, room):
    """The same of three crates of this repository."""
    chain = ('fio_message', 'fio_input', 'fio_cpu')
    sources = {path: text for path, text in sources_of('fio_input').items() if path.endswith('/counter.rt')}
    (path, text), one = *sources.items(), next(one for one in functions_in(sources) if one.clauses() and not one.is_const)
    name, whole = os.path.relpath(path, TOP), text[one.start:one.end]
    tried = Tried(room, 'here', {'crates.txt': 'fio_message: arrayvec\nfio_input: fio_message\nfio_cpu: fio_input\n', name: text,
                                 **{'wrong-bodies/%s.edits' % crate: '# more\n' for crate in chain}})
    for crate in chain:
        shutil.copytree(os.path.join(TOP, 'crates', crate), os.path.join(tried.tree.top, 'crates', crate), ignore=shutil.ignore_patterns('out'))
    for what, other, crates in (('contract', whole.replace('ensures', 'requires', 1), ['fio_input', 'fio_cpu']),
                                ('body', text[one.start:one.body] + text[one.body:one.end].replace('\n', '\nplanted();\n', 1), ['fio_input'])):
        tried.asked()
        check.equal('tried after a change of a %s of fio_input' % what, crates, tried.asked(name, whole, other))


def check_ending(check, room):
    """The end of a run names what failed, what was skipped and what was left; the last line has the totals."""
    tree = Tree(room, 'ending')
    tree.test('proofs', '--write')
    tree.write('tests/bad.sh', BAD, 0o755)
    text, status = tree.test()
    check.equal('its last line and its status', ('22 passed, 1 failed', 1), (text.splitlines()[-1], status))
    check.holds('what failed, and how it is run by itself', "bad: a row with blanks\n  expected: 1\n  got: 2\n    tests/bad.sh -k 'a row with blanks'\n" in text, text)
    check.holds('what failed is last', re.search(r"\n    tests/bad\.sh -k 'a row with blanks'\n22 passed, 1 failed\n\Z", text), text[-600:])
    check.holds('what was skipped', '== skipped\n' in text and '\ngood: a waveform: no viewer here\n' in text, text)
    for form in 'all', 'release':
        check.holds('what was left to --' + form, re.search(r'\n== left to \./test --%s\n(?:.*: .*\n)*good: longer ones\n' % form, text), text)
    check.equal('how many are done', ['%d of 5' % number for number in range(1, 6)], re.findall(r'^== (\d of \d): ', text, re.M))
    check.holds('how long it may take', re.search(r'^5 parts, \d+ at a time: ', text, re.M), text)
    check.holds('how long it took last time', 'last time here' in tree.test()[0])
    tree.write('tests/bad.sh', BAD.replace("printf '", "printf '" + 'FAILED another\\n  expected: %s\\n  got: 3\\n' % ('1' * 500) * 99).replace('1 failed', '100 failed'), 0o755)
    end = tree.test()[0].partition('== FAILED')[2]
    check.holds('very much that failed is told at the end in 15,000 characters', len(end) < 15_000 and end.count('    tests/bad.sh -k another\n') > 30
                and end.endswith('\nand 60 more\n22 passed, 100 failed\n'), end[-600:])
    tree.write('tests/bad.sh', BAD, 0o755)
    text, status = tree.test('good', 'bad', '-k', 'row')
    check.equal('parts that are named', ('8 passed, 1 failed', 1, ['tests/good.sh -k row', 'tests/bad.sh -k row']),
                (text.splitlines()[-1], status, re.findall(r'^== (tests/.*)$', text, re.M)))
    for words, said in (('none', 'there is no part none'), ('-k x', '-k is for the parts that are named'), ('proofs -k x', 'proofs has no rows')):
        text, status = tree.test(*words.split())
        check.equal('./test ' + words, (2, True), (status, said in text))
    text, status = tree.test('--help')
    check.holds('--help', status == 0 and all(word in text for word in ('--all', '--release', '--list', '--write', '-k WORD', 'N passed, M failed')), text)
    for form in '--all', '--release':
        check.holds('--list ' + form, '== tests/bad.sh %s\n' % form in tree.test('--list', form)[0])
    with contextlib.suppress(OSError):
        text = on_terminal(tree)
    check.holds('on a terminal a part has one line', re.search(r'5 of 5 .*\r\n', text) and text.count(': 7 passed, 0 failed, ') == 3, text)


def on_terminal(tree):
    """What `./test` writes on a pseudo-terminal."""
    done = subprocess.run(['script', '-qec', os.path.join(tree.top, 'test'), '/dev/null'], env=tree.environment(), stdin=subprocess.DEVNULL,
                          stdout=subprocess.PIPE, check=False)
    return done.stdout.decode()


def check_ended(check, room):
    """Ctrl-C and SIGTERM end what runs."""
    for number in (signal.SIGINT, signal.SIGTERM):
        tree = Tree(room, number.name)
        pipe = os.path.join(tree.top, 'pipe')
        os.mkfifo(pipe)
        tree.write('tests/long.sh', '#!/bin/sh\necho $$ >%s\nexec sleep 600\n' % pipe, 0o755)
        with subprocess.Popen([os.path.join(tree.top, 'test'), 'long'], env=tree.environment(), stdout=subprocess.DEVNULL) as run:
            with open(pipe, encoding='utf-8') as told:
                process = int(told.read())
            run.send_signal(number)
            check.equal('%s: its status' % number.name, 128 + number, run.wait(LONGEST))
            check.equal('%s: nothing runs on' % number.name, False, os.path.exists('/proc/%d' % process))


def check_lacking(check, room):
    """Without make or a compiler the library is skipped; without python3 all is."""
    tree, folder = Tree(room, 'lacking'), os.path.join(room, 'few')
    tree.test('proofs', '--write')
    os.mkdir(folder)
    for name in ('sh', 'readlink', 'dirname', 'sleep', 'env', 'cat'):
        os.symlink(shutil.which(name), os.path.join(folder, name))
    text, status = tree.test(path=folder)
    check.equal('without python3', (2, 'no python3 here', '0 passed, 0 failed'), (status, re.search('no python3 here', text)[0], text.splitlines()[-1]))
    os.symlink(os.path.realpath(shutil.which('python3')), os.path.join(folder, 'python3'))
    text, status = tree.test(path=folder)
    check.equal('without make', (0, True), (status, 'library: the library: no make here (Debian package make)' in text))
    os.symlink(shutil.which('true'), os.path.join(folder, 'make'))
    text, status = tree.test(path=folder)
    check.equal('without a compiler', (0, True), (status, 'library: the library: no cc here (Debian package gcc)' in text))


def main():
    check = Check()
    with tempfile.TemporaryDirectory() as room:
        for part in (check_list, check_built, check_tried, check_tried_here, check_ending, check_ended, check_lacking):
            part(check, room)
    check.end()


main()
