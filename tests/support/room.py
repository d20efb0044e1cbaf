"""A folder for what a check makes, which its end removes, and commands that run there."""

import atexit
import os
import shutil
import subprocess
import tempfile

room = tempfile.mkdtemp()
atexit.register(shutil.rmtree, room, ignore_errors=True)


def path(name):
    return os.path.join(room, name)


def written(name, text):
    """Writes a text to a file there. Returns its path."""
    with open(path(name), 'w', encoding='utf-8') as file:
        file.write(text)
    return path(name)


def run(*words):
    return subprocess.run(words, capture_output=True, text=True, errors='replace', timeout=900, cwd=room, check=False)


def fault_of(*words):
    """What a command writes if it fails, otherwise nothing."""
    done = run(*words)
    return done.stderr[-500:] or 'status %d' % done.returncode if done.returncode else None
