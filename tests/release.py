#!/usr/bin/env -S python3 -B
"""With `--all` makes the packages of `make release`, and compares their checksums; with `--release` also installs and uses each in a
new Debian system without the kit, the repository and a network. Last line: `N passed, M failed`."""

import os
import shutil
import subprocess
import tempfile

from support import roots
from support.check import Check
from support.tables import CAN_PROVE, TOP

C = '''#include <fio2070.h>
int main(void) { return fio2070_version() != FIO2070_VERSION; }
'''
SUBDIRECTORY = '''cmake_minimum_required(VERSION 3.13)
project(user C)
add_subdirectory(%s fio2070)
add_executable(user user.c)
target_link_libraries(user fio2070::fio2070)
'''
FETCHED = '''cmake_minimum_required(VERSION 3.14)
project(user C)
include(FetchContent)
FetchContent_Declare(fio2070 URL %s)
FetchContent_MakeAvailable(fio2070)
add_executable(user user.c)
target_link_libraries(user fio2070::fio2070)
'''
CARGO = '''[package]
name = "user"
version = "0.1.0"
edition = "2021"
[dependencies]
fio2070 = { path = "%s" }
'''
RUST = '''fn main() {
    let mut out = [0; fio2070::LONGEST_FRAME];
    let poll = fio2070::Command { code: 0x36, block: 5, ..Default::default() };
    assert_eq!(fio2070::encode_command(&poll, &[], &[], &mut out), Ok(&[0x36, 5][..]));
}
'''
SHOWS = '[ "$(echo 3605 | %s show)" = "poll block 5" ]'
READS = "echo 'TX 36 05' | %s decode -q --like 'TX 36 05' | grep -qx '1:     > poll block 5'"
# What is installed of Debian for the second half.
FURTHER = ['python3-venv', 'cmake', 'cargo', 'pkg-config']

check = Check()
room = tempfile.mkdtemp()
release = os.path.join(room, 'release')


def make(folder):
    """Makes all packages. Returns what failed."""
    clean = {name: word for name, word in os.environ.items() if not name.startswith('MAKE') and name not in ('PREFIX', 'DESTDIR')}
    done = subprocess.run(['make', '-s', '-C', TOP, 'release', 'DIST=' + folder], env=clean, capture_output=True, text=True, check=False)
    return (done.stdout + done.stderr)[-800:] if done.returncode else None


def is_listed():
    """The checksums are those of all files."""
    done = subprocess.run(['sha256sum', '--check', '--strict', 'SHA256SUMS'], cwd=release, capture_output=True, text=True, check=False)
    return done.stdout + done.stderr if done.returncode or done.stdout.count(': OK\n') != len(os.listdir(release)) - 1 else None


def row(root, name, script, seconds=300):
    """A row: a script succeeds in the system."""
    if check.wants(name):
        status, text, *_ = roots.run(root, 'set -ex\n' + script, seconds, '/used')
        check.holds(name, status == 0, text[-1200:])


def write(root, name, text):
    path = os.path.join(root, 'used', name)
    os.makedirs(os.path.dirname(path), exist_ok=True)
    with open(path, 'w', encoding='utf-8') as file:
        file.write(text)


def first_half(root):
    """What needs only gcc and python3."""
    row(root, 'the archive', 'tar -xf /release/fio2070-*-x86_64.tar.gz\nbin=$(echo /used/fio2070-*/bin)\n' + SHOWS % '$bin/fio2070' + '\n'
        + READS % '$bin/fiolog' + '\n$bin/fio2070-test --self module 2000\n'
        'cc -I $bin/../include user.c $bin/../lib/libfio2070.a -o user && ./user\nrm -r fio2070-*')
    row(root, 'the Debian packages', 'dpkg -i /release/*_amd64.deb /release/*_all.deb\n' + SHOWS % 'fio2070' + '\n' + READS % 'fiolog'
        + '\nfio2070-test --self cpu 2000\ncc user.c -lfio2070 -o user && ./user\npython3 -c "import fio2070; fio2070.version()"\n'
        'dpkg -r fio2070-tools python3-fio2070 fio2070 libfio2070-dev libfio2070-1\n[ ! -e /usr/bin/fiolog ]')
    row(root, 'the package for arm64', 'dpkg-deb -x /release/libfio2070-dev_*_arm64.deb arm\n[ -f arm/usr/lib/aarch64-linux-gnu/libfio2070.a ]')
    row(root, 'the zip', 'python3 -m zipfile -e /release/fio2070-*-c.zip .\ncd fio2070-*\ncc -std=c99 -Wall -Wextra -I . ../user.c fio2070.c -o user && ./user')
    row(root, 'the page', 'grep -q "<!DOCTYPE html>" /release/fio2070.html')


def second_half(root):
    """What needs pip, CMake or cargo."""
    for name, form in (('the source distribution', 'fio2070-[0-9].[0-9].[0-9].tar.gz'), ('the wheel', '*.whl')):
        row(root, name, 'python3 -m venv env\nenv/bin/pip install --no-index /release/%s\n' % form + READS % 'env/bin/fiolog'
            + '\nenv/bin/python -c "import fio2070; from fio2070 import tester; assert fio2070.version() == fio2070.constants.VERSION"\nrm -r env')
    for name, folder in (('CMake, by add_subdirectory', 'inside'), ('CMake, by FetchContent', 'fetched')):
        row(root, name, 'cp user.c %s\ncmake -S %s -B build && cmake --build build && build/user\nrm -r build' % (folder, folder))
    row(root, 'the crate', 'tar -xf /release/fio2070-*.crate\nmv fio2070-[0-9]*[0-9] crate || true\ncd crate && cargo test --offline --quiet\n'
        'cd ../rust && cargo run --offline --quiet', 600)


def main():
    if not CAN_PROVE:
        check.skip('packages', 'they need the Rattle kit')
        check.end()
    if not shutil.which('cargo'):
        check.skip('packages', 'no cargo here')
        check.end()
    if not check.whole('all packages'):
        check.end()
    fault = make(release)
    check.equal('make release', None, fault)
    if fault:
        check.end()
    check.fault('the checksums', is_listed)
    if not check.release('all packages, in a new Debian system'):
        check.end()
    why = roots.missing()
    root = None if why else roots.made(room)
    if root is None:
        check.skip('packages in a new Debian system', why or 'debootstrap could not make one, as without a network')
        check.end()
    shutil.copytree(release, os.path.join(root, 'release'))
    write(root, 'user.c', C)
    first_half(root)
    if roots.install(root, *FURTHER):
        (archive,) = [name for name in os.listdir(release) if name.endswith('-c.zip')]
        write(root, 'inside/CMakeLists.txt', SUBDIRECTORY % ('/used/' + archive[:-len('-c.zip')]))
        write(root, 'fetched/CMakeLists.txt', FETCHED % ('/release/' + archive))
        write(root, 'rust/Cargo.toml', CARGO % '../crate')
        write(root, 'rust/src/main.rs', RUST)
        second_half(root)
    else:
        check.skip('pip, CMake and cargo in a new Debian system', 'apt-get could not install them, as without a network')
    shutil.rmtree(room, ignore_errors=True)
    check.end()


if __name__ == '__main__':
    main()
