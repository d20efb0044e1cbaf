"""New Debian systems in folders, made by debootstrap: what a user has who has neither the kit nor the repository.
FIO2070_ROOT names a folder with one that was made before, with only gcc, git, make and python3."""

import os
import shutil
import subprocess
import time

MIRROR = 'http://deb.debian.org/debian'
RELEASE = 'bookworm'
# Packages of a whole system, and those that are installed into it later.
MOST_SECONDS = 900
USUAL = ['gcc', 'libc6-dev', 'make', 'python3']
# Without the caller's settings, and without a network.
CLEAN = {'PATH': '/usr/local/bin:/usr/sbin:/usr/bin:/sbin:/bin', 'HOME': '/root', 'LC_ALL': 'C.UTF-8'}


def missing():
    """Why no system can be made here, otherwise nothing."""
    if os.geteuid() != 0:
        return 'this needs root, for chroot'
    if not shutil.which('debootstrap') and not os.environ.get('FIO2070_ROOT'):
        return 'no debootstrap here (Debian package debootstrap)'
    if subprocess.run(['unshare', '--net', '--mount', 'true'], capture_output=True, check=False).returncode:
        return 'this machine allows no namespaces (unshare)'
    return None


def succeeds(words, seconds):
    """Whether a command succeeds in time."""
    try:
        return subprocess.run(words, env={**CLEAN, 'DEBIAN_FRONTEND': 'noninteractive'}, capture_output=True, timeout=seconds,
                              check=False).returncode == 0
    except subprocess.TimeoutExpired:
        return False


def made(room, packages=USUAL, release=RELEASE):
    """The folder of a new system in a room, with these packages; None if it cannot be made, as without a network."""
    root = os.path.join(room, 'root')
    kept = os.environ.get('FIO2070_ROOT')
    words = ['cp', '-a', kept, root] if kept else ['debootstrap', '--variant=minbase', '--include=' + ','.join(packages), release, root, MIRROR]
    return root if succeeds(words, MOST_SECONDS) else None


def install(root, *packages):
    """Installs packages of Debian into a system. Returns whether that succeeded."""
    for name in ('/etc/resolv.conf', '/etc/hosts'):
        if os.path.exists(name):
            shutil.copyfile(name, root + name)
    return (succeeds(['chroot', root, 'apt-get', 'update', '-q'], MOST_SECONDS)
            and succeeds(['chroot', root, 'apt-get', 'install', '-q', '-y', '--no-install-recommends', *packages], MOST_SECONDS))


def processor_seconds():
    """The time that the processes started here have taken so far."""
    times = os.times()
    return times.children_user + times.children_system


def run(root, script, seconds, folder='/'):
    """Runs a script of sh in a folder of a system, without a network. Returns its status, what it writes, and its seconds:
    elapsed and of processors."""
    words = ['unshare', '--net', '--mount', '--pid', '--fork', '--kill-child', 'chroot', root, 'sh', '-c',
             'mount -t proc proc /proc; cd "$1" || exit 1; eval "$2"', 'sh', folder, script]
    begun, used = time.monotonic(), processor_seconds()
    try:
        done = subprocess.run(words, env=CLEAN, stdin=subprocess.DEVNULL, stdout=subprocess.PIPE, stderr=subprocess.STDOUT, timeout=seconds,
                              check=False)
        return done.returncode, done.stdout.decode('utf-8', 'replace'), time.monotonic() - begun, processor_seconds() - used
    except subprocess.TimeoutExpired as late:
        return -1, (late.stdout or b'').decode('utf-8', 'replace'), seconds, seconds
