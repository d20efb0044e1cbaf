"""Definitions: the glossary that tools/generate-glossary writes has each definition of specs/ with what its comment says, each
name in `code` of docs/DEFINITIONS.md is in the sources, and each type and each definition has a name of its own."""

import os
import re

from support.pages import files, text_of, tool
from support.tables import TOP

# What the decoder of octets and that of bits define alike, each for its own line, has the same names in both. One of these,
# `start`, is the name of a link's start too.
TWO_DECODERS = {'crates/fio_wire/specs/Octets.antt', 'crates/fio_wire/specs/Bits.antt'}


def is_whole(check):
    """Compares the names of the glossary, file by file, with those that the files define."""
    glossary = tool('generate-glossary').page()
    parts = {path: part for path, part in re.findall(r'^### \[\w+\]\(\.\./(.*?)\)\n(.*?)(?=^##|\Z)', glossary, re.M | re.S)}
    sources = [path for path in files('crates/*/specs/*.antt') if os.path.basename(path) != 'Lib.antt']
    laws = files('crates/*/src/laws.rt')
    check.equal('files of the glossary', sorted(sources + laws), sorted(parts))
    for path in sources:
        names = re.findall(r'^(?:abbrev |unfoldable )*pub (?!use )(?:record |data )?(\S+)', text_of(path), re.M)
        check.equal('definitions of %s in the glossary' % path, list(dict.fromkeys(names)),
                    re.findall(r'^- `(.*?)`: \S', parts.get(path, ''), re.M))


def have_own_names(check):
    """Looks for types and definitions that have the name of another one."""
    types = r'^(?:pub(?:\(\w+\))? )?(?:struct|enum|trait|union) (\w+)'
    definitions = r'^(?:abbrev |unfoldable )*pub (?!use )(?:record |data )?(\S+)'
    for what, paths, pattern in (('types', 'crates/*/src/**/*.rt', types), ('definitions', 'crates/*/specs/*.antt', definitions)):
        owners = {}
        for path in files(paths):
            if not path.startswith('crates/fio_tests/') and os.path.basename(path) != 'Lib.antt':
                for name in re.findall(pattern, text_of(path), re.M):
                    owners.setdefault(name, set()).add(path)
        shared = {name: sorted(paths) for name, paths in owners.items()
                  if len(paths) > 1 and not TWO_DECODERS <= paths}
        check.equal('%s with the name of another one' % what, {}, shared)


def rows(check):
    """Compares the glossary and docs/DEFINITIONS.md with the sources."""
    is_whole(check)
    have_own_names(check)
    sources = files('crates/*/specs/**/*.antt', 'crates/*/src/**/*.rt')
    everything = {word for path in sources for word in re.findall(r'[\w-]+', text_of(path))}
    for number, line in enumerate(text_of('docs/DEFINITIONS.md').split('\n'), 1):
        for name in re.findall(r'`(\w+)`', line):
            known = name in everything or os.path.isdir(os.path.join(TOP, 'crates', name)) or name == 'specs'
            check.holds('docs/DEFINITIONS.md:%d: %s is defined' % (number, name), known)
