"""Forges: the files for GitHub and GitLab can be read, and run packaging/forge; what that runs exists."""

import os
import re
import subprocess

from support.gate.parts import names
from support.pages import text_of
from support.tables import TOP

GITHUB, GITLAB, SCRIPT = '.github/workflows/check.yml', '.gitlab-ci.yml', 'packaging/forge'


def commands_of(path):
    """The commands of a file, as its forge reads them."""
    import yaml
    read = yaml.safe_load(text_of(path))
    if path == GITLAB:
        return [line for job in read.values() for line in job['script']]
    return [step['run'] for job in read['jobs'].values() for step in job['steps'] if 'run' in step]


def absent(lines):
    """The commands of this repository in lines of sh that are none: files that cannot be run, and parts that ./test does not have."""
    words = [line.split() for line in lines if re.match(r'\.?/|\w+/', line)]
    parts = [word for line in words if line[0] == './test' for word in line[1:] if not word.startswith('-')]
    return ([line[0] for line in words if not os.access(os.path.join(TOP, line[0]), os.X_OK)] + [part for part in parts if part not in names()])


def rows(check):
    """Reads both files and the script."""
    try:
        import yaml  # noqa: F401
    except ImportError:
        check.skip('the files of forges', 'no module yaml here (Debian package python3-yaml)')
    else:
        for path in (GITHUB, GITLAB):
            check.holds('%s runs %s' % (path, SCRIPT), SCRIPT in commands_of(path), commands_of(path))
            check.equal('commands of %s that do not exist' % path, [], absent(commands_of(path)))
    lines = text_of(SCRIPT).splitlines()
    check.equal('commands of %s that do not exist' % SCRIPT, [], absent(lines))
    check.holds('%s runs checks' % SCRIPT, sum(line.startswith('./test') for line in lines) > 1)
    done = subprocess.run(['sh', '-n', os.path.join(TOP, SCRIPT)], capture_output=True, text=True, check=False)
    check.equal('%s is a script' % SCRIPT, (0, ''), (done.returncode, done.stderr))
