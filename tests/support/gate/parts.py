"""The parts of `./test`: their files, what they need, and what they cost."""

import os
import re
import shutil
import subprocess

TOP = os.path.dirname(os.path.dirname(os.path.dirname(os.path.dirname(os.path.realpath(__file__)))))
PROOFS, BODIES, LIBRARY = 'proofs', 'wrong-bodies', 'library'
# What proves all crates, whatever tests/proved.sums says.
GATE = ['rt', 'ci']
# Checks that have no quick form.
ONLY_ALL = ('completions', 'packages', 'release')
# Parts that need what the Rattle kit makes of the crates.
WITH_KIT = (PROOFS, BODIES, 'clone', 'embedding', 'portable', 'portable-parts', 'release', 'snippets')
# Checks that need nothing that `make library` makes.
WITHOUT_LIBRARY = ('building', 'checked-runs', 'computed-reports', 'embedding', 'examples', 'lossy', 'page-access', 'portable-instructions',
                   'program', 'random-inputs', 'records', 'scripts', 'shows', 'snippets', 'texts', 'transcripts')
# Checks that are nothing without make and a compiler.
WITH_MAKE = ('c-library', 'conformance', 'endurance', 'firmware', 'gate', 'install', 'packages', 'page', 'page-access', 'refused-memory')
# The costs of all parts: lines `PART QUICK WHOLE` in seconds of a processor, `-` if there is no such form.
COSTS = os.path.join(TOP, 'tests', 'costs')


def has(command):
    """Whether a command is installed."""
    return shutil.which(command) is not None


def lacking():
    """Which of make and a compiler is missing, with its package; nothing if both are here."""
    packages = {'make': 'make', 'cc': 'gcc'}
    return next(('no %s here (Debian package %s)' % (one, packages[one]) for one in packages if not has(one)), None)


def checks():
    """Returns the checks, the executable files of tests/: their names without the endings, with their paths below the top."""
    folder = os.path.join(TOP, 'tests')
    paths = {name: os.path.join(folder, name) for name in os.listdir(folder)}
    found = {name.partition('.')[0]: 'tests/' + name for name, path in paths.items() if os.path.isfile(path) and os.access(path, os.X_OK)}
    return dict(sorted(found.items()))


def names():
    """Returns the names of all parts."""
    return [PROOFS, BODIES, *checks()]


def costs():
    """Returns what each part costs in seconds of a processor, in the quick and in the whole form."""
    with open(COSTS, encoding='utf-8') as file:
        rows = [line.split() for line in file if not line.startswith('#')]
    return {name: [None if one == '-' else float(one) for one in both] for name, *both in rows}


def write_costs(seen, is_whole):
    """Writes into the table what parts cost in one of the two forms. What the kit does has the whole one alone."""
    rows = costs()
    for name, seconds in seen.items():
        rows.setdefault(name, [None, None])[is_whole or name.partition('/')[0] in (PROOFS, BODIES)] = seconds
    with open(COSTS, encoding='utf-8') as file:
        head = [line for line in file if line.startswith('#')]
    with open(COSTS, 'w', encoding='utf-8') as file:
        file.writelines(head + ['%s %s\n' % (name, ' '.join('-' if one is None else '%d' % round(one) for one in both))
                                for name, both in sorted(rows.items())])


def path_without_kit(room):
    """Returns a PATH without the kit: in place of each folder that has it, one in the room with links to all else in it."""
    folders = os.environ['PATH'].split(os.pathsep)
    for place, folder in enumerate(folders):
        if os.access(os.path.join(folder, 'rt'), os.X_OK):
            folders[place] = os.path.join(room, 'commands-%d' % place)
            os.mkdir(folders[place])
            for name in os.listdir(folder):
                if name != 'rt':
                    os.symlink(os.path.abspath(os.path.join(folder, name)), os.path.join(folders[place], name))
    return os.pathsep.join(folders)


def is_of_these_sources():
    """Whether dist/ was made of the present sources: the library, the page and the program."""
    found = subprocess.run([os.path.join(TOP, 'packaging/release-files'), '--sources'], stdout=subprocess.PIPE, check=True).stdout.decode().strip()
    program = subprocess.run([os.path.join(TOP, 'packaging/program'), '--sources'], stdout=subprocess.PIPE, check=True).stdout
    with open(os.path.join(TOP, 'dist/fio2070.c'), encoding='utf-8') as file:
        told = re.search(r'Sources: (\w+)', file.read(4096))
    with open(os.path.join(TOP, 'dist/fio2070-x86_64-linux-gnu.sources'), 'rb') as file:
        return bool(told) and told[1] == found and file.read() == program
