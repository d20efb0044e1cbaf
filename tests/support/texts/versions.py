"""Versions: that of the newest heading of CHANGELOG.md is that of each place that names one: the program, its manual page,
its documents, the C library, the packages for Python and Rust. No other file names it."""

import os
import re
import subprocess

from support.pages import text_of
from support.tables import TOP

# The places that name the version, with the text around it.
PLACES = [
    ('CHANGELOG.md', '## %s\n'),
    ('README.md', '\nVersion %s ('),
    ('bindings/python/pyproject.toml', 'name = "fio2070"\nversion = "%s"\n'),
    ('bindings/rust/fio2070/Cargo.lock', 'name = "fio2070"\nversion = "%s"\n'),
    ('bindings/rust/fio2070/Cargo.toml', 'name = "fio2070"\nversion = "%s"\n'),
    ('crates/fio_tool/src/command_line.rt', 'VERSION: &str = "%s";\n'),
    ('docs/FORMATS.md', '\nfio2070 %s\n'),
    ('packaging/CMakeLists.txt', 'project(fio2070 VERSION %s '),
    ('man/fio2070-test.1', '"fio2070 %s"'),
    ('man/fio2070-tools.1', '"fio2070 %s"'),
    ('man/fio2070.1', '"fio2070 %s"'),
    ('man/fiolog.1', '"fio2070 %s"'),
]

# The places that name it by its three numbers, or by the one number that `fio2070_version` returns.
NUMBERS = [
    ('crates/fio_c/src/version.rt', '{ result ≡ version_number %(major)d %(minor)d %(patch)d }\n'),
    ('include/fio2070.h', '\n#define FIO2070_VERSION %(number)d\n'),
]

NO_SOURCES = {'.git', 'doc', 'out', 'dist', 'release', 'target', '__pycache__'}


def files():
    """Each file of the repository that is a source."""
    for folder, folders, names in os.walk(TOP):
        folders[:] = sorted(name for name in folders if name not in NO_SOURCES)
        yield from (os.path.relpath(os.path.join(folder, name), TOP) for name in names if not name.startswith('libfio2070'))


def rows(check):
    """Compares each place with the version."""
    version = re.search(r'^## (\d+\.\d+\.\d+)$', text_of('CHANGELOG.md'), re.M)[1]
    for path, form in PLACES:
        found = re.search(re.escape(form).replace('%s', r'(\d+\.\d+\.\d+)'), text_of(path))
        check.equal('the version in %s, as in %r' % (path, form), version, found and found[1])
    major, minor, patch = map(int, version.split('.'))
    numbers = {'major': major, 'minor': minor, 'patch': patch, 'number': 10000 * major + 100 * minor + patch}
    for path, form in NUMBERS:
        check.holds('the version in %s, as in %r' % (path, form), form % numbers in text_of(path))
    form = re.compile(r'(?<![\d.])%s(?![\d.]*\d)' % re.escape(version))
    check.equal('files that name the version', sorted({path for path, _ in PLACES}),
                sorted(path for path in files() if form.search(text_of(path))))
    done = subprocess.run([os.path.join(TOP, 'fio2070'), '--version'], stdout=subprocess.PIPE)
    check.equal('the version of the program', 'fio2070 %s\n' % version, done.stdout.decode())
