"""Makes the wheel for pip, with the command `fiolog`, and the source distribution. The shared library in the wheel is the one
that `make library` made at the top of the repository; without one a C compiler makes it of dist/fio2070.c and the tester,
which a source distribution has in its folder c/."""

import base64
import glob
import gzip
import hashlib
import io
import os
import re
import shlex
import shutil
import subprocess
import sys
import sysconfig
import tarfile
import tempfile
import zipfile

HERE = os.path.dirname(os.path.abspath(__file__))
TOP = os.path.join(HERE, '..', '..')

LICENCES = ('LICENSE', 'LICENSES-OF-OTHERS')


def content(path):
    with open(path, 'rb') as file:
        return file.read()


def setting(name):
    """What a line of pyproject.toml sets. Only the forms of that file are read: Python has a reader of TOML since 3.11."""
    lines = content(os.path.join(HERE, 'pyproject.toml')).decode().splitlines()
    value = next(line.partition(' = ')[2] for line in lines if line.startswith(name + ' = '))
    texts = re.findall('"(.*?)"', value)
    return texts if value.startswith('[') else texts[0]


def metadata():
    """The lines about the package, and its page."""
    fields = [('Metadata-Version', '2.1'), ('Name', setting('name')), ('Version', setting('version')),
              ('Summary', setting('description')), ('License', setting('license')), *(('License-File', name) for name in LICENCES),
              ('Requires-Python', setting('requires-python')), ('Description-Content-Type', 'text/markdown'),
              *(('Requires-Dist', name + '; extra == "tools"') for name in setting('tools')), ('Provides-Extra', 'tools')]
    return ''.join('%s: %s\n' % field for field in fields).encode() + b'\n' + content(os.path.join(HERE, setting('readme')))


NAME = '%s-%s' % (setting('name'), setting('version'))
COMMANDS = '[console_scripts]\nfiolog = %s\n' % setting('fiolog')
WHEEL = """Wheel-Version: 1.0
Generator: fio2070
Root-Is-Purelib: false
Tag: %s
"""
PACKAGES = ['fio2070/*.py', 'fio2070/py.typed', 'fiolog/*.py']
# What the shared library is made of, in the repository.
SOURCES = ['dist/fio2070.[ch]', 'tools/conformance/conformance*.[ch]', 'tools/conformance/shared.c', 'tools/conformance/exports.map',
           'packaging/hardening']
# Its name, and the options that make it, on each system. That of Windows has no tester, which needs POSIX.
LIBRARIES = {'win32': ('fio2070.dll', ['-shared']),
             'darwin': ('libfio2070.1.dylib', ['-dynamiclib', '-fPIC', '-Wl,-exported_symbol,_fio2070_*']),
             'linux': ('libfio2070.so.1', ['-shared', '-fPIC', '-Wl,-soname,libfio2070.so.1'])}
LIBRARY, SHARED = LIBRARIES.get(sys.platform, LIBRARIES['linux'])


def found(folder, forms):
    """The files of these forms in a folder, by their paths in it."""
    paths = [path for form in forms for path in sorted(glob.glob(os.path.join(folder, *form.split('/'))))]
    return {os.path.relpath(path, folder).replace(os.sep, '/'): path for path in paths}


def licences(folder=''):
    """The texts of the licences, by their names in a folder: those of the repository, or of a source distribution."""
    paths = {name: os.path.join(HERE if os.path.exists(os.path.join(HERE, name)) else TOP, name) for name in LICENCES}
    return {folder + name: content(path) for name, path in paths.items()}


def sources():
    """What the shared library is made of, by name."""
    packed = found(os.path.join(HERE, 'c'), ['*'])
    return packed or {name.rpartition('/')[2]: path for name, path in found(TOP, SOURCES).items()}


def hardening(script, words):
    """The flags of packaging/hardening that a compiler takes beside its own; none where there is no sh."""
    if not shutil.which('sh'):
        return []
    said = [subprocess.run(['sh', script, *kind, *words], stdout=subprocess.PIPE, check=False).stdout.decode() for kind in ([], ['--link'])]
    return ' '.join(said).split()


def compiled(room):
    """Makes the shared library in a folder. Returns its path."""
    files, path = sources(), os.path.join(room, LIBRARY)
    compiler = shlex.split(os.environ.get('CC') or sysconfig.get_config_var('CC') or 'cc')
    if not shutil.which(compiler[0]):
        compiler = ['cc']
    if not shutil.which(compiler[0]):
        sys.exit('fio2070: there is no C compiler: its shared library is compiled when it is installed (set CC to name one)')
    flags = shlex.split(os.environ.get('CFLAGS', '-O2')) + SHARED
    if sys.platform not in ('win32', 'darwin'):
        flags.append('-Wl,--version-script=' + files['exports.map'])
    code = [file for name, file in files.items() if name.endswith('.c') and (name == 'fio2070.c' or sys.platform != 'win32')]
    folders = {os.path.dirname(file) for file in files.values()}
    flags += hardening(files['hardening'], compiler + shlex.split(os.environ.get('CFLAGS', '-O2')))
    words = compiler + flags + ['-I' + folder for folder in sorted(folders)] + code + ['-o', path]
    if subprocess.run(words + shlex.split(os.environ.get('LDFLAGS', '')), check=False).returncode:
        sys.exit('fio2070: its shared library could not be compiled by %s' % compiler[0])
    return path


def wheel_contents(tag):
    """The files of the wheel, by their names in it."""
    contents = {name: content(path) for name, path in found(HERE, PACKAGES).items()}
    made = os.path.join(TOP, LIBRARY)
    if os.path.exists(made) and not os.path.isdir(os.path.join(HERE, 'c')):
        contents['fio2070/' + LIBRARY] = content(made)
    else:
        with tempfile.TemporaryDirectory() as room:
            contents['fio2070/' + LIBRARY] = content(compiled(room))
    contents[NAME + '.dist-info/METADATA'] = metadata()
    contents.update(licences(NAME + '.dist-info/'))
    contents[NAME + '.dist-info/WHEEL'] = (WHEEL % tag).encode()
    contents[NAME + '.dist-info/entry_points.txt'] = COMMANDS.encode()
    return contents


def build_wheel(wheel_directory, config_settings=None, metadata_directory=None):
    """What pip calls: writes the wheel, and returns its name."""
    tag = 'py3-none-' + sysconfig.get_platform().replace('-', '_').replace('.', '_')
    contents, record = wheel_contents(tag), NAME + '.dist-info/RECORD'
    lines = ''
    for name, octets in contents.items():
        digest = base64.urlsafe_b64encode(hashlib.sha256(octets).digest()).rstrip(b'=').decode()
        lines += '%s,sha256=%s,%d\n' % (name, digest, len(octets))
    contents[record] = (lines + record + ',,\n').encode()
    wheel = '%s-%s.whl' % (NAME, tag)
    with zipfile.ZipFile(os.path.join(wheel_directory, wheel), 'w', zipfile.ZIP_DEFLATED) as archive:
        for name, octets in contents.items():
            one = zipfile.ZipInfo(name)
            one.external_attr = 0o644 << 16
            archive.writestr(one, octets, zipfile.ZIP_DEFLATED)
    return wheel


def build_sdist(sdist_directory, config_settings=None):
    """What `pip` and `build` call: writes the source distribution, and returns its name. The same files give the same octets."""
    contents = {name: content(path) for name, path in found(HERE, ['pyproject.toml', 'README.md', 'backend.py'] + PACKAGES).items()}
    contents.update(('c/' + name, content(path)) for name, path in sources().items())
    contents['PKG-INFO'] = metadata()
    contents.update(licences())
    name = NAME + '.tar.gz'
    with open(os.path.join(sdist_directory, name), 'wb') as file, \
            gzip.GzipFile(filename='', mode='wb', fileobj=file, mtime=0) as packed, \
            tarfile.open(fileobj=packed, mode='w', format=tarfile.PAX_FORMAT) as archive:
        for path, octets in contents.items():
            one = tarfile.TarInfo('%s/%s' % (NAME, path))
            one.size, one.mode = len(octets), 0o644
            archive.addfile(one, io.BytesIO(octets))
    return name
