"""Clauses: each clause of each public call of the libraries has a wrong body that it refuses, or a wrong statement if the
call is a law, whose body is empty, or if the clause only says what holds of the arguments; and no wrong body is one that only private
functions refuse, but for those of `must-fail`. The line `refused-by:` of a stanza names it; `wrong-bodies/try` tries whether it is refused
by that clause."""

import os
import re

from support.functions import TOP, crate_names, functions_in, laws_in, sources_of, without_words
from support.stanzas import stanzas_of

# No body breaks these: what the call returns is the only value of its type, or the ring that it is given the only one.
ALONE = ['fio_world: World::module, its clause', 'fio_world: World::poller, its clause',
         *('fio_module: ModuleState::%s, same_memory' % name for name in ('restart', 'scan', 'poll', 'obey', 'carry_out'))]


def libraries():
    """Returns the libraries that `crates.txt` lists."""
    return [name for name in crate_names() if os.path.exists(os.path.join(TOP, 'crates', name, 'src', 'lib.rt'))]


def exported(sources, path):
    """Returns the names that a module file exports, by `pub use` and by its public modules."""
    names, folder = set(), os.path.dirname(path)
    if os.path.basename(path) != 'lib.rt':
        folder = path[:-len('.rt')]
    for found in re.finditer(r'^pub use ([^;]*);', sources[path], re.M | re.S):
        names.update(re.findall(r'\w+', found[1]))
    for found in re.finditer(r'^pub mod (\w+);', sources[path], re.M):
        inner = os.path.join(folder, found[1] + '.rt')
        names.update(re.findall(r'^pub (?:const )?(?:fn|struct|enum) (\w+)', sources[inner], re.M))
        names |= exported(sources, inner)
    return names


def public_clauses(crate):
    """Returns the clauses of each public call and law of a crate, by its name in lines `refused-by:`."""
    sources = {path: without_words(text) for path, text in sources_of(crate).items()}
    names = exported(sources, os.path.join(TOP, 'crates', crate, 'src', 'lib.rt'))
    # Those for C are public in any module.
    return {one.short: [name or 'its clause' for name in one.clauses()] for one in laws_in(sources) + functions_in(sources)
            if one.is_public and ((one.owner or one.name) in names or one.is_export())}


def named_clauses(crate):
    """Returns each clause by which a stanza of a crate is refused, and the name of its function or law."""
    for stanza in stanzas_of(crate):
        for part in (stanza.refused_by or '').split('; '):
            short, *clauses = part.split(', ')
            yield from ((short, clause) for clause in clauses)


def rows(check):
    """Looks for a stanza of each clause, and for each clause that a stanza or ALONE names. What has a blank in its name is
    not a clause of a contract."""
    left = set(ALONE)
    for crate in libraries():
        public, named = public_clauses(crate), set(named_clauses(crate))
        for short, clause in sorted((short, clause) for short in public for clause in public[short]):
            line = '%s: %s, %s' % (crate, short, clause)
            is_guarded = (short, clause) in named or line in ALONE
            check.holds('a wrong body for ' + line, is_guarded, 'none')
            left.discard(line)
        private = [one.name for one in stanzas_of(crate) if not one.is_of_gate and one.named().isdisjoint(public)]
        check.holds('%s: its wrong bodies, refused by public calls and laws' % crate, not private, 'by private ones alone: %s' % ', '.join(private))
        gone = {'%s: %s, %s' % (crate, *one) for one in named
                if one[1] not in public.get(one[0], [one[1]]) and (' ' not in one[1] or not public[one[0]])}
        check.holds('%s: the clauses that its wrong bodies name' % crate, not gone, 'not there: %s' % '; '.join(sorted(gone)))
    check.holds('the clauses that no body breaks', not left, 'not there: %s' % '; '.join(sorted(left)))
