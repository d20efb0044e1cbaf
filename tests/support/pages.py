"""The texts of the repository, in the form in which the checks of texts read them, and its tools, as modules."""

import functools
import glob
import importlib.machinery
import importlib.util
import itertools
import os
import re
import sys

from support.tables import TOP


@functools.cache
def text_of(name):
    """Returns the text of a file, by its path below the top."""
    with open(os.path.join(TOP, name), encoding='utf-8', errors='replace') as file:
        return file.read()


def files(*forms):
    """Returns the paths below the top that fit one of these forms, in order."""
    return [os.path.relpath(path, TOP) for form in forms for path in sorted(glob.glob(os.path.join(TOP, form), recursive=True))]


def documents():
    """Returns the documents: those at the top, those of docs/, tools/, bindings/ and examples/, and the manual pages."""
    return files('*.md', 'docs/*.md', 'tools/*.md', 'tools/*/*.md', 'bindings/*/*.md', 'examples/*.md', 'man/*.1')


def opened(word):
    """Returns the words of a pattern with braces."""
    return map(''.join, itertools.product(*(part.split(',') for part in re.split('[{}]', word))))


def section(page, heading):
    """Returns the text of a page after a heading, up to the next one of its rank or of a higher one."""
    rank, text = heading.split(' ')[0], text_of(page).partition('\n%s\n' % heading)[2]
    return re.split(r'^#{1,%d} ' % len(rank), text, maxsplit=1, flags=re.M)[0]


def tool(name):
    """Returns a script of tools/ as a module."""
    sys.path.insert(0, os.path.join(TOP, 'tools'))
    loader = importlib.machinery.SourceFileLoader(name.replace('-', '_'), os.path.join(TOP, 'tools', name))
    module = importlib.util.module_from_spec(importlib.util.spec_from_loader(loader.name, loader))
    loader.exec_module(module)
    return module
