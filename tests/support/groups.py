"""Crates with their stanzas, and groups of stanzas that can be tried together, for `wrong-bodies/try`."""

import functools
import os
import re

from support.functions import TOP, changed_places, functions_in, functions_of, homes_of, laws_in, read, sources_of, without_bodies
from support.lanes import BUILT, PROOF_FILES, Done, crates_below
from support.stanzas import stanzas_of, texts_of
from support.uses import Uses
from support.verdicts import short_name

LARGEST_GROUP = 64
USES = re.compile(r'^(?:ghost )?use [^;]*;\n', re.M)


class Crate:
    """A crate with its stanzas and its functions, which have short names in the lines `refused-by:`."""

    def __init__(self, name, word):
        self.name = name
        self.stanzas = [one for one in stanzas_of(name) if word in one.name]
        self.sources = sources_of(name)
        self.files = {os.path.relpath(path, os.path.join(TOP, 'crates', name)): text for path, text in self.sources.items()}
        self.homes = homes_of(self.sources)
        self.functions, self.laws = functions_in(self.sources), laws_in(self.sources)
        self.uses = Uses(name)
        # The whole names of functions and laws, and the texts of the files of functions, by their short names.
        self.places = {one.short: one.place() for one in self.functions + self.laws}
        self.shorts = {place: short for short, place in self.places.items()}
        self.texts = {one.short: self.sources[one.path] for one in self.functions}
        self.reading, self.seconds, self.checks = 0, 0, 0
        # The groups that are still to be tried, and what has to be tried again, for the first time or not.
        self.left, self.hidden, self.is_again = [], [], False

    def is_built(self, jobs):
        """Builds the libraries that the crate uses, unless they are built, which proves them. Returns whether they exist."""
        for name in crates_below(self.name):
            done = Done(os.path.join(TOP, 'crates', name), ['rt', 'lib', '--jobs', str(jobs)])
            if done.returncode != 0:
                self.tell(done)
                return False
        return True

    def is_ready(self):
        """Whether the libraries that the crate uses are built: each then has its stamp."""
        return all(os.path.exists(os.path.join(TOP, 'crates', name, BUILT, 'stamp')) for name in crates_below(self.name))

    def tell(self, done):
        print('%s is not read as it is:\n%s' % (self.name, done.stdout[-2000:]))

    def named(self):
        """The functions and laws that the lines `refused-by:` name, or all if a stanza has no such line, since it may be
        about any."""
        are_told = all(one.refused_by for one in self.stanzas)
        return set().union(*(one.named() for one in self.stanzas)) if are_told else set(self.places)

    @functools.cache
    def functions_of(self, file, text):
        return list(functions_of(os.path.join(TOP, 'crates', self.name, file), text, self.homes))

    def with_bodies(self, file, text, named):
        """The text of a file with the bodies of these functions alone, given by their short names."""
        return without_bodies(text, [one for one in self.functions_of(file, text) if self.short(one.place()) not in named])

    def proofs_of(self, short):
        """The files of the proof of a function or a law that exist: their names, and their texts."""
        folder = os.path.join(TOP, 'crates', self.name, 'proofs', *self.places[short].split('::')[1:])
        for name in PROOF_FILES:
            path = os.path.join(folder, name)
            if os.path.exists(path):
                yield name, read(path)

    def lemmas_of(self, short):
        """The files of lemmas that the proof of a function or a law names, in itself or in attributes of its file."""
        texts = [self.texts.get(short, ''), *(text for _, text in self.proofs_of(short))]
        named = re.compile(r'use Rattle\.%s\.proofs\.(\w+)|\bcrate::proofs::(\w+)' % self.name)
        found = {name for text in texts for names in named.findall(text) for name in names}
        return {name for name in found if 'proofs.' + name in self.uses.texts}

    def short(self, name):
        """The short name of a function, by its whole one."""
        return self.shorts.get(name, short_name(name))

    def bodies(self, stanza):
        """The functions whose bodies a stanza changes, or the laws whose statements, in the law or in definitions; None if
        it changes anything else. Names that it brings into a file change nothing there. A control changes what its wrong statement
        changes."""
        found = set()
        if any(not file.startswith('src/') for file in stanza.files()):
            is_of_laws = all(name.startswith('law ') for name in stanza.named())
            return (stanza.named() or None) if is_of_laws and self.uses.changed(stanza) else None
        for path, first, last in changed_places(self.sources, stanza):
            if any(one.start() <= first and last <= one.end() + 1 for one in USES.finditer(self.sources[path])):
                continue
            within = {one.short for one in self.functions
                      if one.path == path and one.body <= first and last <= one.end}
            within |= {one.short for one in self.laws if one.path == path and one.start <= first and last <= one.end + 1}
            if not within:
                return None
            found |= within
        return found or None

    def rests_on_change(self, stanza, other):
        """Whether something that refuses a stanza rests on a definition that another one changes."""
        changed = self.uses.changed(other)
        return any(changed & (self.uses.rests_on(name) if name.startswith('law ') else self.uses.of_functions)
                   for name in stanza.named() or [''])

    def are_apart(self, one, other):
        """Whether no function and no law that refuses one of two stanzas rests on a definition that the other changes. What
        controls change is as it was."""
        return (one.is_control and other.is_control
                or not self.rests_on_change(one, other) and not self.rests_on_change(other, one))

    def groups(self):
        """The stanzas, and their controls, in groups that can be tried together."""
        controls = [stanza.control() for stanza in self.stanzas]
        return self.grouped([(stanza, self.bodies(stanza)) for stanza in self.stanzas + controls if stanza])

    def grouped(self, stanzas):
        groups = []
        for stanza, bodies in stanzas:
            if not any(one.takes(stanza, bodies) for one in groups):
                groups.append(Group(self, {stanza: bodies}))
        return groups


class Group:
    """Stanzas that are tried together: they change the bodies of different functions, or the statements of different
    laws, none of which rests on what another one changes; or there is one alone."""

    def __init__(self, crate, bodies):
        self.crate, self.bodies = crate, bodies

    def takes(self, stanza, bodies):
        """Takes a stanza, if it does not touch what others change, not even through the texts that they write."""
        if bodies is None or len(self.bodies) >= LARGEST_GROUP:
            return False
        if any(its is None or its & bodies and not (one.is_control and stanza.is_control)
               or not self.crate.are_apart(stanza, one) for one, its in self.bodies.items()):
            return False
        self.bodies[stanza] = bodies
        fits = self.texts() is not None
        if not fits:
            del self.bodies[stanza]
        return fits

    def halves(self):
        stanzas = list(self.bodies.items())
        middle = len(stanzas) // 2
        return [Group(self.crate, dict(half)) for half in (stanzas[:middle], stanzas[middle:])]

    def texts(self):
        """The files that the group changes, and their texts, or None if a stanza does not fit."""
        texts = texts_of(self.crate.name, [file for one in self.bodies for file in one.files()])
        for one in self.bodies:
            texts = one.apply(texts) if texts is not None else None
        return texts

    def named(self):
        """The functions and laws to check: those that the lines `refused-by:` name, and those whose bodies are changed, or
        all if there are none."""
        return set().union(*(one.named() | (bodies or set()) or set(self.crate.places) for one, bodies in self.bodies.items()))

    def __str__(self):
        return '%s, %d from %s' % (self.crate.name, len(self.bodies), next(iter(self.bodies)).name)
