#!/usr/bin/env -S python3 -B
"""Runs the examples with which the crates' `src/lib.rt` begin, the blocks marked `rust`, each as the body of a test of its
own with a runtime `rt`. It builds the crates anew in a folder of its own and proves nothing. Last line: `N passed, M
failed`."""

import glob
import os
import re
import shutil
import subprocess
import tempfile

from support.check import Check
from support.tables import TOP

TEST = """
mod block_%d {
%s
    use std::test::Fail;

    #[test]
    fn runs(rt: HostRuntime) -> Result<(), Fail> {
%s
        Ok(())
    }
}
"""


def blocks():
    """The examples: each with the name of its crate, the lines of its imports and its other lines."""
    for path in sorted(glob.glob(os.path.join(TOP, 'crates', '*', 'src', 'lib.rt'))):
        with open(path, encoding='utf-8') as source:
            text = ''.join(line[4:] or '\n' for line in source if line.startswith('//!'))
        for block in re.findall(r'^```rust\n(.*?)^```$', text, re.M | re.S):
            lines = block.splitlines()
            yield (os.path.relpath(path, TOP), [line for line in lines if line.startswith('use ')],
                   [line for line in lines if not line.startswith('use ')])


def write_crate(folder, tests):
    """Writes the crates to a folder, and beside them a crate of these tests."""
    libraries = []
    with open(os.path.join(TOP, 'crates.txt'), encoding='utf-8') as listed:
        for line in listed:
            name = line.split(':')[0]
            if os.path.exists(os.path.join(TOP, 'crates', name, 'src', 'lib.rt')):
                libraries.append(line)
                shutil.copytree(os.path.join(TOP, 'crates', name), os.path.join(folder, 'crates', name),
                                ignore=shutil.ignore_patterns('out', 'must-fail'))
    names = ' '.join(line.split(':')[0] for line in libraries)
    source = os.path.join(folder, 'crates', 'blocks', 'src')
    os.makedirs(source)
    with open(os.path.join(folder, 'crates.txt'), 'w', encoding='utf-8') as listed:
        listed.write(''.join(libraries) + 'blocks: %s\n' % names)
    with open(os.path.join(source, 'lib.rt'), 'w', encoding='utf-8') as library:
        library.write('//! The examples of the crates.\n#![tactic(auto)]\n\n#[cfg(test)]\nmod tests {%s}\n' % tests)
    shutil.copy(os.path.join(TOP, 'HANDLES'), folder)
    return os.path.dirname(source)


def main():
    check = Check()
    found = list(blocks())
    tests = ''.join(TEST % (number, '\n'.join(imports), '\n'.join(lines))
                    for number, (_, imports, lines) in enumerate(found, 1))
    with tempfile.TemporaryDirectory() as folder:
        done = subprocess.run(['rt', 'try', '--test'], cwd=write_crate(folder, tests), stdin=subprocess.DEVNULL,
                              stdout=subprocess.PIPE, stderr=subprocess.STDOUT, timeout=900)
    text = done.stdout.decode('utf-8', 'replace')
    for number, (path, _, _) in enumerate(found, 1):
        check.holds('the example of %s' % path, re.search(r'^test .*block_%d\b.* \.\.\. ok$' % number, text, re.M), text)
    check.holds('eleven crates have an example', len(found) == 11, found)
    check.equal('the status of all examples', 0, done.returncode)
    check.end()


main()
