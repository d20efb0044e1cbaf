"""Identity: what follows from packaging/identity is as tools/generate-identity writes it. On a copy with each field filled in, each
value is in the files that need it, and nothing is said to be missing."""

import os
import re
import shutil
import subprocess
import tempfile

from support.pages import text_of
from support.tables import TOP

# Where each field is when it is known.
PLACES = {'maintainer': ('LICENSE', 'include/fio2070.h', 'packaging/deb'), 'year': ('LICENSE', 'include/fio2070.hpp'), 'mail': ('packaging/deb',),
          'licence': ('README.md', 'bindings/python/pyproject.toml', 'bindings/rust/fio2070/Cargo.toml'),
          'repository': ('README.md', 'packaging/deb', 'bindings/python/pyproject.toml', 'bindings/rust/fio2070/Cargo.toml'),
          'reports': ('SECURITY.md',), 'private': ('SECURITY.md',), 'key': ('SECURITY.md',), 'date': ('README.md',), 'supported': ('SECURITY.md',)}
YEAR = '1987'


def generate(top, *words):
    """Runs the generator of a tree. Returns its status and what it says."""
    done = subprocess.run([os.path.join(top, 'tools', 'generate-identity'), *words], stdout=subprocess.PIPE, stderr=subprocess.STDOUT, encoding='utf-8')
    return done.returncode, done.stdout


def copied(copy):
    """Copies what the generator reads and writes."""
    written = re.findall(r"'([\w./-]+)'", text_of('tools/generate-identity'))
    paths = {path for path in written if os.path.isfile(os.path.join(TOP, path))}
    for path in (*paths, 'tools/generate-identity', 'tools/sources.py'):
        os.makedirs(os.path.join(copy, os.path.dirname(path)), exist_ok=True)
        shutil.copy2(os.path.join(TOP, path), os.path.join(copy, path))


def read(copy, path):
    """Returns the text of a file of the copy."""
    with open(os.path.join(copy, path), encoding='utf-8') as file:
        return file.read()


def rows(check):
    """Compares the files with packaging/identity, and fills in all fields on a copy."""
    check.equal('what follows from packaging/identity', (0, ''), generate(TOP, '--check'))
    with tempfile.TemporaryDirectory() as copy:
        copied(copy)
        values = {name: YEAR if name == 'year' else 'value-of-%s' % name for name in PLACES}
        with open(os.path.join(copy, 'packaging', 'identity'), 'w', encoding='utf-8') as file:
            file.writelines('%s: %s\n' % pair for pair in values.items())
        check.equal('a copy with each field filled in', (0, ''), generate(copy))
        for name, paths in PLACES.items():
            check.equal('files without the field %s' % name, [], [path for path in paths if values[name] not in read(copy, path)])
        check.equal('what is not filled in there', [], [path for path in ('README.md', 'SECURITY.md') if 'illed in' in read(copy, path)])
        check.equal('the copy once more', (0, ''), generate(copy, '--check'))
        with open(os.path.join(copy, 'packaging', 'identity'), 'a', encoding='utf-8') as file:
            file.write('name: another\n')
        check.equal('a field that is none', 1, generate(copy)[0])
