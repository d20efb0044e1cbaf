#!/usr/bin/env -S python3 -B
"""Uses the sources without the Rattle kit, as a new user would: `./fio2070` of a clone with few other commands, where its program
runs and where it does not; in a copy the library, a program in C, the tester, `fiolog`, the wrappers, `make install`. With `--all`
also a library for Windows and for a processor of another byte order, and in the copy the parts of `./test` that ask whether the kit
is here; with `--release` all parts, other processors, and packages and all of it in a new Debian system that first only has git, and
then gcc, make and python3 too, without a network. Last line: `N passed, M failed`."""

import hashlib
import os
import random
import re
import shutil
import subprocess
import tempfile
import time
from pathlib import Path

from support import roots
from support.browsers import browsers, running
from support.check import Check
from support.console import commands as commands_of, row
from support.opened import CELLS, example, started, words_in
from support.tables import TOP, can_simulate, program_of
from support.waits import used

PATH = '/usr/bin:/bin'
MINUTE = 60
# Other checks use processors at the same time.
MOST_SECONDS = 15 * MINUTE
PROGRAM = '''#include <fio2070.h>
int main(void) {
    static const struct fio2070_poller poller = {5};
    uint8_t poll[2] = {0, 0};
    return fio2070_poller_poll(&poller, poll, sizeof poll) != 2 || poll[1] != 5;
}
'''
LOG = '07:15:02.100 TX 36 05\n07:15:02.108 RX B6 05 00 00 00 00 03 E8\n'
check = Check()
room = Path(tempfile.mkdtemp())
clone = room / 'clone'
EXAMPLES = Path(TOP, 'examples')
# What the compiled program does too.
TOOLS = ('show', 'check', 'record')
# The parts of `./test` that do something else without the kit.
ASKING = ('c-library', 'documents', 'gate', 'program', 'refused-memory', 'release-files', 'texts')
# The packages of Debian whose commands `./fio2070` needs, and git.
FEW = ['coreutils', 'findutils', 'sed', 'diffutils', 'git']


def environment(**more):
    """Without the kit, and without the settings of a make or of the caller's compiler."""
    return {'PATH': PATH, 'HOME': str(room), 'LC_ALL': 'C.UTF-8', 'PYTHONDONTWRITEBYTECODE': '1', **more}


def run(*words, text='', seconds=MOST_SECONDS, folder=clone, **more):
    """A command in the copy."""
    return subprocess.run(words, input=text, capture_output=True, text=True, errors='replace', timeout=seconds, cwd=folder,
                          env=environment(**more), check=False)


def fault(*words, **settings):
    """What a command writes if it fails, otherwise nothing."""
    done = run(*words, **settings)
    return 'status %d: %s' % (done.returncode, (done.stdout + done.stderr)[-600:]) if done.returncode else None


def works(name, command, **settings):
    """A row: the shell runs a command in the copy, which succeeds."""
    check.fault(name, lambda: fault('sh', '-c', command, **settings))


def copy_sources():
    """The files that git has or would add."""
    listed = subprocess.run(['git', 'ls-files', '-co', '--exclude-standard', '-z'], cwd=TOP, stdout=subprocess.PIPE, check=True)
    for name in filter(None, listed.stdout.decode().split('\0')):
        if os.path.lexists(os.path.join(TOP, name)):
            (clone / name).parent.mkdir(parents=True, exist_ok=True)
            shutil.copy2(os.path.join(TOP, name), clone / name, follow_symlinks=False)


def list_sources():
    """tests/release-files.sh checks that dist/ is of the present sources; here its list is made of the sources of the copy."""
    listed, sums = run('packaging/program', '--sources').stdout, clone / 'dist/SHA256SUMS'
    (clone / 'dist/fio2070-x86_64-linux-gnu.sources').write_text(listed, encoding='utf-8')
    if sums.exists():
        sums.write_text(re.sub(r'[0-9a-f]{64}(?=  fio2070-x86_64-linux-gnu\.sources\n)', hashlib.sha256(listed.encode()).hexdigest(),
                               sums.read_text(encoding='ascii')), encoding='ascii')


def few_commands():
    """A folder with the commands of few packages."""
    folder = room / 'few'
    folder.mkdir()
    listed = subprocess.run(['dpkg', '-L', *FEW], stdout=subprocess.PIPE, text=True, check=True).stdout
    for path in re.findall('^(?:/usr)?/bin/[^/]+$', listed, re.M):
        (folder / os.path.basename(path)).symlink_to(path)
    return str(folder)


def as_repository():
    """Makes the copy a repository of git, from which others are cloned."""
    git = ['git', '-c', 'user.name=user', '-c', 'user.email=user@example.org', '-c', 'commit.gpgsign=false']
    for words in (['init', '-q'], ['add', '-A'], ['commit', '-q', '-m', 'sources']):
        subprocess.run(git + words, cwd=clone, check=True)


# The commands of the first page, each with the lines that it prints; the second finds a fault. All take half a minute at most.
FIRST_PAGE = [(command, lines) for _, command, lines in commands_of(enumerate(
    re.search(r'^```console\n(.*?)^```', Path(TOP, 'README.md').read_text(encoding='utf-8'), re.M | re.S)[1].splitlines()))]
FIRST_SECONDS = 30


def first_page(where, run_there):
    """The first page in a fresh clone: `run_there` runs a command, and returns what it writes on both streams."""
    check.equal('the first page has three commands, and its second finds a fault ' + where, (3, True),
                (len(FIRST_PAGE), any(' breaks ' in line for line in FIRST_PAGE[1][1])))
    before = used()
    for command, lines in FIRST_PAGE:
        row(check, 'the first page %s: %s' % (where, command), lines, run_there(command))
    check.holds('the first page takes half a minute at most ' + where, used() - before < FIRST_SECONDS, '%.1f s of a processor' % (used() - before))


# What a user does next, and what has to be in the text.
ANSWERS = [
    ('echo 3605 | ./fio2070 show', 'poll block 5\n'),
    ('./fio2070 simulate <examples/overflow.script', '22 block entries 255 status 0c\n'),
    ('./fio2070 check <examples/good.transcript', 'good '),
    ('./fio2070 record <examples/doubled-entry.transcript', 'line 10 input 12 breaks fresh\n'),
]


def with_few_commands():
    """A clone, in which the program answers at once, and says if it is of other sources."""
    if not shutil.which('dpkg'):
        check.skip('a clone with few commands', 'no dpkg here, which lists the commands of a package')
        return
    few = {'PATH': few_commands(), 'folder': room / 'cloned'}
    check.equal('git clone', None, fault('git', 'clone', '-q', clone, few['folder'], PATH=few['PATH'], folder=room))
    first_page('with few commands', lambda command: run('/bin/sh', '-c', command + ' 2>&1', **few).stdout)
    for command, wanted in ANSWERS:
        before = used()
        done = run('/bin/sh', '-c', command, **few)
        check.equal('with few commands: ' + command, (True, ''), (wanted in done.stdout, done.stderr))
        check.holds('at once: ' + command, used() - before < 5, '%.1f s of a processor' % (used() - before))
    done = run('./fio2070', '--version', **few)
    check.equal('which program it is', (True, True, 1), (done.stdout.startswith('fio2070 '), 'of dist/, made of these sources' in done.stderr,
                                                         done.stderr.count('\n')))
    changed, added = (few['folder'] / 'crates' / name for name in ('fio_message/src/lib.rt', 'fio_cpu/specs/Added.antt'))
    text = changed.read_text(encoding='utf-8')
    for name, path, other in (('a changed source', changed, text + '\n'), ('an added source', added, '')):
        path.write_text(other, encoding='utf-8')
        done = run('./fio2070', 'show', text='3605\n', **few)
        check.equal(name + ' is reported', ('poll block 5\n', True, 1), (done.stdout, 'made of other sources' in done.stderr, done.stderr.count('\n')))
        changed.write_text(text, encoding='utf-8')
        added.unlink(missing_ok=True)
    done = run('./fio2070', 'show', text='3605\n', **few)
    check.equal('sources as they were', ('poll block 5\n', ''), (done.stdout, done.stderr))


def elsewhere():
    """The program that is compiled where that of dist/ does not run, as on another processor."""
    script = room / 'elsewhere/uname'
    script.parent.mkdir()
    script.write_text('#!/bin/sh\necho Linux riscv64\n', encoding='ascii')
    script.chmod(0o755)
    there = {'PATH': '%s:%s' % (script.parent, PATH)}
    first, second = run('./fio2070', 'show', text='3605\n', **there), run('./fio2070', 'show', text='3605\n', **there)
    check.equal('the first call', ('poll block 5\n', 0), (first.stdout, first.returncode))
    check.holds('the first call says what answers', 'does not run on this machine' in first.stderr and 'dist/fio2070.c' in first.stderr, first.stderr)
    check.equal('the second call says nothing', ('poll block 5\n', ''), (second.stdout, second.stderr))
    check.equal('everyone can run it', 0o755, (clone / 'out/fio2070').stat().st_mode & 0o777)
    simulated = run('./fio2070', 'simulate', text='fio2070 script 1 2 0\n', **there)
    check.equal('simulate says what is missing', ('', 125, True),
                (simulated.stdout, simulated.returncode, re.match('[^\n]*no simulate[^\n]* Play ', simulated.stderr) is not None))
    check.equal('no subcommand', ('fio2070: no subcommand\n', 2), (lambda it: (it.stdout, it.returncode))(run('./fio2070', **there)))
    said = run('./fio2070', '--version', **there)
    check.equal('which program it is there', (True, True, 1), (said.stdout.startswith('fio2070 '), 'compiled' in said.stderr, said.stderr.count('\n')))
    lacking = run('./fio2070', 'show', text='3605\n', CC='no-such-compiler', FIO2070_OUT=str(room / 'lacking'), **there)
    check.equal('without a compiler', (125, 2), (lacking.returncode, lacking.stderr.count('\n')))


def mutated(octets, draw):
    """The octets with a few changes."""
    for _ in range(draw.randrange(4)):
        place = draw.randrange(len(octets) + 1)
        mark = draw.choice([b'', b' ', b'\n', b'#', b'0', b'F', b'\r', b'> ', b'< 34\n', bytes([draw.randrange(256)])])
        octets = octets[:place] + mark + octets[place + draw.choice([0, 0, 1, 2, 30]):]
    return octets


def answers(path, tool, octets):
    """What a program writes, and its status."""
    done = subprocess.run([path, tool], input=octets, stdout=subprocess.PIPE, stderr=subprocess.PIPE, check=False)
    return done.stdout + done.stderr, done.returncode


def alike():
    """The compiled program writes exactly what the proved one does: for the checks of texts, the examples, and changed ones."""
    stand_in = str(clone / 'out/fio2070')
    longer = ('random-inputs.py', 'records.py') if can_simulate() and check.whole('texts of random-inputs.py and records.py') else ()
    for name in ('shows.py', 'transcripts.py', 'examples.sh', *longer):
        if check.wants('texts of ' + name):
            done = subprocess.run([os.path.join(TOP, 'tests', name)], env={**os.environ, 'FIO2070_PROGRAM': stand_in}, capture_output=True,
                                  text=True, check=False)
            check.holds('texts of ' + name, re.search(r'^[1-9]\d* passed, 0 failed$', done.stdout, re.M), done.stdout[-600:])
    if not can_simulate():
        return
    draw, proved = random.Random(59), program_of('simulate')
    for path in sorted(filter(Path.is_file, EXAMPLES.iterdir())):
        whole = path.read_bytes()
        for tool in TOOLS:
            texts = [whole] + [mutated(whole, draw) for _ in range(20 if check.given.release else 6 if check.given.all else 2)]
            wrong = [text for text in texts if answers(stand_in, tool, text) != answers(proved, tool, text)]
            check.equal('%s of %s and of changed ones' % (tool, path.name), [], wrong)
    for text in (b'', b'36' * (1 << 19), b'36' * (1 << 19) + b'0', b'#' * (1 << 20) + b'\n', b'> 36' + b'00' * 3000):
        for tool in TOOLS:
            check.equal('%s of %d octets' % (tool, len(text)), answers(proved, tool, text), answers(stand_in, tool, text))


def faults():
    """A read or a write of the compiled program that fails."""
    for tool in TOOLS:
        check.equal('a failing write of ' + tool, 3, run('sh', '-c', 'echo 3605 | out/fio2070 %s >/dev/full' % tool).returncode)
        done = run('sh', '-c', 'out/fio2070 %s </' % tool)
        check.equal('a failing read of ' + tool, ('fio2070: read fault\n', 3), (done.stdout, done.returncode))


def library():
    """The library, a program, the tester, fiolog and the wrappers."""
    asked = run('tools/fiolog', '--help', CC='no-such-compiler')
    check.equal('the help of fiolog needs no library', (0, '', 'usage: fiolog'), (asked.returncode, asked.stderr, asked.stdout[:13]))
    bare = run('tools/fiolog', 'check', 'examples/good.transcript', CC='no-such-compiler')
    check.equal('fiolog without its library and a compiler', (3, 1), (bare.returncode, bare.stderr.count('\n')))
    check.holds('it says what to do', 'make library' in bare.stderr and 'Traceback' not in bare.stderr, bare.stderr)
    # Without -O2 a compiler takes a third of the time.
    first, second = (run('tools/fiolog', 'check', '-q', 'examples/doubled-entry.transcript', CFLAGS='-O0', FIO2070_OUT=folder) for folder in ('', 'out/..'))
    check.equal('fiolog makes its library, once', ([True] * 2, ''),
                (['\nline 10: fresh: ' in done.stdout for done in (first, second)], second.stderr))
    check.holds('it says so in one line, with its seconds', re.fullmatch(r'fiolog: there is no library yet: making it from dist/fio2070.c, once \.\. \d+ s\n', first.stderr), first.stderr)
    works('make library', 'make -s library')
    changed = room / 'changed'
    for file in ('dist/fio2070.c', 'dist/fio2070.h', 'dist/SHA256SUMS', 'packaging/listed', 'packaging/without-kit.mk', 'packaging/hardening', 'Makefile', 'CHANGELOG.md'):
        (changed / file).parent.mkdir(parents=True, exist_ok=True)
        shutil.copy2(clone / file, changed / file)
    for name, text, said in (('as it is listed', '', ''), ('changed', '/* changed */\n', 'make: dist/fio2070.h is not as dist/SHA256SUMS lists it\n')):
        with open(changed / 'dist/fio2070.h', 'a', encoding='utf-8') as header:
            header.write(text)
        done = run('make', '-s', 'libfio2070.a', 'CC=true', 'AR=touch', folder=changed)
        check.equal('what make says of a header that is ' + name, said, done.stderr)
    (clone / 'program.c').write_text(PROGRAM, encoding='utf-8')
    for name in ('dist', 'include'):
        works('a program with the header of ' + name, 'cc -I %s program.c libfio2070.a -o program && ./program' % name)
    works('a program with the files of C alone', 'cc -I dist program.c dist/fio2070.c -o program && ./program')
    for end in ('module', 'cpu'):
        works('the tester of a ' + end, './fio2070-test --self %s 20000' % end)
    works('a device that is tested', 'PYTHONPATH=bindings/python ./fio2070-test --command tools/conformance/adapters/adapter.py 2000')
    log = run('tools/fiolog', 'decode', '-q', text=LOG)
    check.holds('a log is decoded', '> poll block 5' in log.stdout, log.stdout + log.stderr)
    check.equal('a log is checked', 0, run('tools/fiolog', 'check', text=LOG).returncode)
    works('the tests of the Python binding', 'python3 test.py', folder=clone / 'bindings/python')
    cargo = shutil.which('cargo')
    if cargo:
        works('the tests of the Rust crate', 'cargo test --offline --quiet', folder=clone / 'bindings/rust/fio2070',
              PATH=os.path.dirname(cargo) + ':' + PATH, HOME=os.environ.get('HOME', str(room)), CARGO_TARGET_DIR=str(room / 'target'))
    else:
        check.skip('the tests of the Rust crate', 'no cargo here')
    check.holds('the page is a page', '<!DOCTYPE html>' in (clone / 'dist/fio2070.html').read_text(encoding='utf-8')[:100])


def flags():
    """The contents of CFLAGS and LDFLAGS reach the compiler."""
    (room / 'flags').mkdir(exist_ok=True)
    done = run('make', '-n', 'library', 'OUT=%s/flags' % room, 'CFLAGS=-O1 -DGIVEN', 'LDFLAGS=-Wl,--given')
    lines = [line for line in done.stdout.splitlines() if line.startswith('cc ')]
    check.holds('CFLAGS', lines and all('-O1 -DGIVEN' in line for line in lines), done.stdout)
    check.holds('LDFLAGS', sum('-Wl,--given' in line for line in lines) == 2, done.stdout)


def pip():
    """The Python package is compiled when it is installed; without a compiler it is not installed."""
    python, bare = room / 'python', room / 'bare'
    if run('python3', '-m', 'venv', python).returncode:
        check.skip('pip install', 'python3 has no module venv here (Debian package python3-venv)')
        return
    shutil.rmtree(bare, ignore_errors=True)
    shutil.copytree(clone, bare, symlinks=True, ignore=shutil.ignore_patterns('libfio2070*', 'out'))
    install = [python / 'bin/pip', 'install', '--quiet', '--no-index', bare / 'bindings/python']
    lacking = run(*install, PATH=str(python / 'bin'))
    check.holds('pip install without a compiler fails', lacking.returncode != 0 and 'no C compiler' in lacking.stdout + lacking.stderr,
                (lacking.stdout + lacking.stderr)[-600:])
    check.holds('and puts no fiolog in place', not (python / 'bin/fiolog').exists())
    check.fault('pip install', fault, *install)
    log = run(python / 'bin/fiolog', 'decode', '-q', text=LOG, folder='/')
    if shutil.which('readelf') and 'now' in run('packaging/hardening', '--link', 'cc').stdout:
        (library,) = python.glob('lib/python*/site-packages/fio2070/libfio2070.so.1')
        check.holds('the installed library is hardened', 'NOW' in run('readelf', '-d', library).stdout)
    check.holds('the installed fiolog', '> poll block 5' in log.stdout, log.stdout + log.stderr)


def installing():
    """What `make install` puts in place runs, and `make uninstall` leaves nothing."""
    prefix = room / 'installed'
    works('make install', 'make -s install PREFIX=%s' % prefix)
    log = run(prefix / 'bin/fiolog', 'check', text=LOG, folder='/')
    check.equal('the installed fiolog checks', 0, log.returncode)
    shown = run(prefix / 'bin/fio2070', 'simulate', text='fio2070 script 1 2 0\n', folder='/')
    check.equal('the installed program simulates', ('counter 0', 0), (shown.stdout.partition('\n')[0], shown.returncode))
    works('make uninstall', 'make -s uninstall PREFIX=%s' % prefix)
    check.equal('nothing is left', [], [name for _, _, names in os.walk(prefix) for name in names])


def own_test():
    """`./test` in the copy runs what can run, and says what it could not run; these parts alone do."""
    for name, parts, said in (('parts of ./test', ASKING, ''), ('./test', (), 'proofs\n')):
        if parts or check.release('./test without the kit'):
            done = run('./test', *parts, seconds=3000, HOME=os.environ.get('HOME', str(room)))
            last = done.stdout.rstrip().rpartition('\n')[2]
            check.holds(name + ' without the kit', re.fullmatch(r'\d\d+ passed, 0 failed', last) and said in done.stdout,
                        '\n'.join(re.findall('^FAILED.*\n.*\n.*', done.stdout, re.M))[:1500] + last)


def windows():
    """A library for Windows, by MinGW, and what clang's dialect of MSVC says about the two files."""
    compiler = 'x86_64-w64-mingw32-gcc'
    if not shutil.which(compiler):
        check.skip('a library for Windows', 'no %s here (Debian package gcc-mingw-w64-x86-64)' % compiler)
        return
    out = room / 'windows'
    works('a library for Windows', "make -s library OUT=%s CC=%s AR=x86_64-w64-mingw32-ar CFLAGS='-O1 -Wall -Wextra'" % (out, compiler))
    for name, source in ('program', 'program.c'), ('fio2070', 'tools/without-kit/main.c'):
        works(name + '.exe', '%s -O1 -Wall -Wextra -I dist %s %s/libfio2070.a -o %s/%s.exe' % (compiler, source, out, out, name))
    headers = '/usr/share/mingw-w64/include'
    if shutil.which('clang') and os.path.isdir(headers):
        works('no warning in the dialect of MSVC', 'clang --target=x86_64-pc-windows-msvc -fms-extensions -std=c11 '
              '-fms-compatibility-version=19.30 -Wall -Werror -fsyntax-only -isystem %s dist/fio2070.c' % headers)
    else:
        check.skip('no warning in the dialect of MSVC', 'no clang here, or no headers (Debian package mingw-w64-x86-64-dev)')
    wine = shutil.which('wine64') or shutil.which('wine') or shutil.which('/usr/lib/wine/wine64')
    if not wine:
        check.skip('programs for Windows run', 'no wine here (Debian package wine64)')
        return
    settings = {'WINEDEBUG': '-all', 'WINEPREFIX': str(room / 'wine'), 'seconds': 300}
    check.fault('a program for Windows runs', lambda: fault(wine, out / 'program.exe', **settings))
    shown = run(wine, out / 'fio2070.exe', 'show', text='3605\nzz\n', **settings)
    check.equal('fio2070.exe runs', ('poll block 5\nline 2: bad line\n', 1), (shown.stdout, shown.returncode))


def processors():
    """The library and the program on processors of other sizes and byte orders: first on one that is big-endian, of 32 bits."""
    for prefix, qemu in (('powerpc-linux-gnu-', 'qemu-ppc'), ('arm-linux-gnueabihf-', 'qemu-arm'), ('aarch64-linux-gnu-', 'qemu-aarch64')):
        name = prefix[:-1]
        if qemu != 'qemu-ppc' and not check.release('the library on ' + name):
            continue
        if not shutil.which(prefix + 'gcc') or not shutil.which(qemu):
            check.skip('the library on ' + name, 'no %sgcc or no %s here (Debian packages gcc-%s, qemu-user)' % (prefix, qemu, name))
            continue
        out = room / name
        works('make library for ' + name, 'make -s library OUT=%s CC=%sgcc AR=%sar CFLAGS=-O1 LDFLAGS=-static-libgcc' % (out, prefix, prefix))
        built = fault(prefix + 'gcc', '-O1', '-static', '-I', 'dist', 'tools/without-kit/main.c', out / 'libfio2070.a', '-o', out / 'fio2070')
        check.equal('the program for ' + name, None, built)
        for path in sorted(EXAMPLES.iterdir()) if not built else ():
            tool, end = {'.frames': ('show', '.shown'), '.transcript': ('check', '.verdict')}.get(path.suffix, ('', ''))
            if tool:
                text, due = (one.read_text(encoding='latin-1') for one in (path, path.with_suffix(end)))
                check.equal('%s on %s' % (path.name, name), due, run(qemu, out / 'fio2070', tool, text=text).stdout)


# What a user does in a new system, each within a minute of processor time, and what has to be in the text.
SESSION = [
    ('tools/fiolog check -q examples/doubled-entry.transcript || [ $? -eq 1 ]', 'line 10: fresh'),
    ('make library', ''),
    ('./fio2070 show < examples/lost-answer.frames', 'block 0 entries 1 status 00 stamp 2'),
    ('./fio2070 check < examples/given-up-block.transcript || true', 'line 4 breaks advance'),
    ('tools/fiolog decode examples/captures/serial-log.txt | head -n 4', 'poll block'),
    ('tools/fiolog check examples/given-up-block.transcript || true', 'advance'),
    ('cc -I dist program.c libfio2070.a -o program && ./program && echo linked and run', 'linked and run'),
    ('cd bindings/python && python3 test.py 2>&1 | tail -n 1', 'OK'),
    ('PYTHONPATH=bindings/python ./fio2070-test --command tools/conformance/adapters/adapter.py 2000', ''),
    ('make install PREFIX=/usr/local >/dev/null && fiolog --help | head -n 1', 'usage: fiolog'),
]


def page_fault(kind, path):
    """What is wrong with a page in which an example is opened."""
    begun = time.monotonic()
    with running(kind) as browser:
        started(browser, 'file://' + path)
        example(browser, 'lost-answer.frames')
        trouble, rows = words_in(browser, '#trouble'), browser.run(CELLS)
    print('%s opens dist/fio2070.html and an example in it [%.1f s]' % (kind.name, time.monotonic() - begun))
    return trouble or ('poll block 255' not in [row[3] for row in rows] and repr(rows))


# The same of packages that are made without the kit, in a system that has not even git.
INSTALLED = [
    ('apt-get install -y --no-install-recommends ./packages/*.deb', ''),
    ('echo 3605 | fio2070 show', 'poll block 5'),
    ('fio2070 simulate </usr/share/doc/fio2070/examples/overflow.script', '22 block entries 255 status 0c'),
    ("echo 'TX 36 05' | fiolog decode -q --like 'TX 36 05'", '> poll block 5'),
    ('fio2070-test --self module 2000', ''),
    ('cc program.c -lfio2070 -o program && ./program && echo linked and run', 'linked and run'),
    ('ls /usr/share/man/man1/', 'fio2070-test.1.gz\nfio2070-tools.1.gz'),
    ('apt-cache show ./packages/libfio2070-1_*.deb || dpkg -s libfio2070-1', 'compiled from dist/fio2070.c'),
]


# What bindings/python/README.md says of installing: the commands of the page as they are.
INSTALLING = re.search(r'\n## Installing\n.*?\n\n((?:    [^\n]*\n)+)', Path(TOP, 'bindings/python/README.md').read_text(encoding='utf-8'), re.S)[1]
WITH_PIP = [
    ('ls /usr/lib/python3*/EXTERNALLY-MANAGED', ''),
    ('! python3 -m pip install --no-index ./bindings/python 2>&1', 'externally-managed-environment'),
    (' && '.join(line.strip() for line in INSTALLING.splitlines()), 'breaches 0'),
]


def session(root, folder, commands):
    """A row for each command of a session in a new system."""
    for command, wanted in commands:
        status, text, seconds, used = roots.run(root, command, MOST_SECONDS, folder)
        print('$ %s\n%s[status %d, %.1f s, %.1f s of a processor]' % (command, text, status, seconds, used))
        check.holds('in a new system: ' + command, status == 0 and wanted in text and used < MINUTE, text[-600:])


def in_new_system():
    """All of it in a Debian system of its own, without a network: first it only has git, and then gcc, make and python3 too."""
    why = roots.missing()
    if why:
        check.skip('a new Debian system', why)
        return
    root = roots.made(str(room), ['git'])
    if not root:
        check.skip('a new Debian system', 'debootstrap could not make one, as without a network')
        return
    shutil.move(clone, os.path.join(root, 'sources'))
    session(root, '/', [('git clone -q /sources clone', '')])
    first_page('in a new system', lambda command: roots.run(root, command, MOST_SECONDS, '/clone')[1])
    session(root, '/clone', [(command + ' || [ $? -eq 1 ]', wanted) for command, wanted in ANSWERS])
    if not os.environ.get('FIO2070_ROOT') and not roots.install(root, *roots.USUAL):
        check.skip('gcc, make and python3 in a new Debian system', 'apt-get could not install them, as without a network')
        return
    Path(root, 'clone/program.c').write_text(PROGRAM, encoding='utf-8')
    session(root, '/clone', SESSION)
    if roots.install(root, 'python3-pip', 'python3-venv'):
        session(root, '/clone', WITH_PIP)
    else:
        check.skip('pip in a new Debian system', 'apt-get could not install python3-venv, as without a network')
    session(root, '/clone', [('make -s deb DIST=/used/packages 2>&1', '/used/packages/python3-fio2070_'), ('make -s uninstall PREFIX=/usr/local', '')])
    shutil.copy(os.path.join(root, 'clone/program.c'), os.path.join(root, 'used'))
    session(root, '/used', INSTALLED)
    for kind in browsers(check):
        check.fault('the page opens in ' + kind.name, page_fault, kind, os.path.join(root, 'clone/dist/fio2070.html'))


def main():
    if shutil.which('rt', path=PATH):
        check.skip('a clone without the kit', 'rt is in ' + PATH)
        check.end()
    if not shutil.which('cc', path=PATH) or not shutil.which('git'):
        check.skip('a clone without the kit', 'no cc or no git here')
        check.end()
    copy_sources()
    list_sources()
    as_repository()
    with_few_commands()
    elsewhere()
    alike()
    faults()
    library()
    flags()
    pip()
    installing()
    if check.whole('parts of ./test without the kit'):
        own_test()
    if check.whole('a library for Windows'):
        windows()
    if check.whole('the library on other processors'):
        processors()
    if check.release('a new Debian system'):
        in_new_system()
    shutil.rmtree(room, ignore_errors=True)
    check.end()


if __name__ == '__main__':
    main()
