"""Runs of the scripts that tools/lossy-script writes, and what tools/transcript makes of their reports."""

import os
import subprocess
import tempfile

from support.tables import TOP, output_of
from support.waits import LONGEST


def run(tool, words, text=''):
    """What a tool writes, what it writes on standard error, and its exit status."""
    done = subprocess.run([os.path.join(TOP, 'tools', tool), *words], input=text.encode(), stdout=subprocess.PIPE,
                          stderr=subprocess.PIPE, timeout=LONGEST)
    return done.stdout.decode(), done.stderr.decode(), done.returncode


def lossy_script(seed, inputs=(1, 4, 16)):
    """A script whose bus loses frames and repeats none."""
    return run('lossy-script', ['--rounds', '120', '--repeat', '0', '--loss', str((0, 0.1, 0.3)[seed % 3]), '--seed', str(seed),
                                '--inputs', str(inputs[seed // 3 % 3])])[0]


def transcripts_of(script):
    """What tools/transcript makes of the report of a script, named and not."""
    report = output_of('simulate', script)[0]
    with tempfile.NamedTemporaryFile('w', suffix='.script') as file:
        file.write(script)
        file.flush()
        return run('transcript', [file.name], report), run('transcript', [], report)


def run_of_link(script):
    """The transcript of a script's run."""
    return transcripts_of(script)[0][0]
