"""The list tests/proved.sums: of each crate the sum of what `rt ci` last proved, and the kit that did. Only a run of all crates
that passed writes it. Of each file its path and its octets count, and of a crate also its line of crates.txt."""

import hashlib
import os
import re
import subprocess

from support.gate.parts import TOP, has

LIST = os.path.join(TOP, 'tests', 'proved.sums')
HEAD = '''# The crates as `rt ci` last proved them: the kit, then of each crate the SHA-256 of its sources. `./test proofs --write` writes this.
'''
# The files of a crate that `rt ci` reads: by their endings, and those beside src/.
READ = re.compile(r'(?:src|specs|proofs)/.*\.(?:rt|antt)|must-fail/[^/]*\.(?:edit|md)|c/.*|data/.*|stdin|stdout|args|status')


def crates():
    """Returns the crates: of each its line of crates.txt, and those of this repository that it uses."""
    with open(os.path.join(TOP, 'crates.txt'), encoding='utf-8') as listed:
        lines = [line.split('#')[0].strip() for line in listed]
    lines = {line.partition(':')[0].split()[0]: line for line in lines if line}
    return {name: (line, [used for used in line.partition(':')[2].split() if used in lines]) for name, line in lines.items()}


def files_of(crate):
    """Returns the files of a crate that count, by their paths below it."""
    folder, found = os.path.join(TOP, 'crates', crate), []
    for at, below, names in os.walk(folder):
        below[:] = [name for name in below if name not in ('out', '__pycache__')]
        found += [os.path.relpath(os.path.join(at, name), folder) for name in names]
    return sorted(path for path in found if READ.fullmatch(path))


def sum_of(crate, line):
    """Returns the sum of a crate with this line of crates.txt."""
    found = hashlib.sha256(line.encode())
    for path in files_of(crate):
        with open(os.path.join(TOP, 'crates', crate, path), 'rb') as file:
            found.update(b'\n%s %s' % (hashlib.sha256(file.read()).hexdigest().encode(), path.encode()))
    return found.hexdigest()


def kit():
    """Returns the identity of the kit, or None without one."""
    if not has('rt'):
        return None
    return subprocess.run(['rt', 'version'], stdout=subprocess.PIPE, check=True).stdout.decode().strip()


def sums():
    """Returns the sums of the crates as they are, with the kit if there is one."""
    found = {name: sum_of(name, line) for name, (line, _) in crates().items()}
    return {'kit': kit(), **found}


def listed():
    """Returns the sums of the list, and its kit: nothing if there is no list."""
    if not os.path.exists(LIST):
        return {}
    with open(LIST, encoding='utf-8') as file:
        return dict(line.rstrip('\n').split(' ', 1) for line in file if not line.startswith('#'))


def differing(found):
    """Returns the crates whose sums are not those of the list: all with another kit. Without a kit the list's own counts."""
    known = listed()
    is_other = found['kit'] is not None and found['kit'] != known.get('kit')
    names = sorted({*found, *known} - {'kit'})
    return [name for name in names if is_other or found.get(name) != known.get(name)]


def resting_on(names):
    """Returns those of these crates that exist, and all that rest on one of them, as in crates.txt."""
    uses = {name: used for name, (_, used) in crates().items()}
    rest = set(names)
    while any(rest & set(used) and name not in rest for name, used in uses.items()):
        rest |= {name for name, used in uses.items() if rest & set(used)}
    return [name for name in uses if name in rest]


def write(found):
    """Writes the list."""
    with open(LIST, 'w', encoding='utf-8') as file:
        file.write(HEAD + ''.join('%s %s\n' % row for row in found.items()))
