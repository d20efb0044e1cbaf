"""What the laws of a crate rest on, and what its functions do: the definitions and lemmas that their statements and proofs
name, and those that these name."""

import functools
import glob
import os
import re

from support.functions import TOP, read, sources_of

WORDS = re.compile(r'[^\s()\[\]{},;.]+')
KINDS = {'abbrev', 'unfoldable', 'pub', 'record', 'data', 'eta'}


def items_of(text):
    """The items of a file of definitions or lemmas, each as its name and its position: from a line that does not begin with
    a blank to the next item."""
    name, start, place = None, 0, 0
    for line in text.splitlines(keepends=True):
        if line.strip() and not line[0].isspace():
            words = [word for word in WORDS.findall(line) if word not in KINDS]
            found = None if line.startswith(('--', 'use ', 'unfolding ', 'mod ')) or not words else words[0]
            if found != name:
                if name is not None:
                    yield name, start, place
                name, start = found, place
        place += len(line)
    if name is not None:
        yield name, start, place


class Uses:
    """The items of a crate, each with the items that it names, and its laws."""

    def __init__(self, crate):
        self.crate, self.folder = crate, os.path.join(TOP, 'crates', crate)
        self.texts, self.used, self.reached = {}, {}, {}
        for part in ('specs', 'proofs'):
            for path in glob.glob(os.path.join(self.folder, part, '**', '*.antt'), recursive=True):
                self.texts[os.path.relpath(path, self.folder)[:-len('.antt')].replace(os.sep, '.')] = read(path)
        self.names = {module: {name for name, _, _ in items_of(text)} for module, text in self.texts.items()}
        for module, text in self.texts.items():
            scope = self.scope(text) | {name: (module, name) for name in self.names[module]}
            for name, start, end in items_of(text):
                self.used.setdefault((module, name), set()).update(self.named(text[start:end], scope))

    def scope(self, text):
        """The items that a file imports, by their names: all of a module if it imports the module, also by another name."""
        found = {}
        for module, names in re.findall(r'^ *(?:pub )?(?:ghost )?use Rattle\.%s\.([\w.]+?)(?:\.\{([^}]*)\}| as \w+)?(?:;|$)'
                                        % self.crate, text, re.M):
            wanted = names.split(',') if names else self.names.get(module, ())
            for name, _, other in (one.strip().partition(' as ') for one in wanted):
                item = self.found_in(module, name)
                if item:
                    found[other or name] = item
        return found

    def found_in(self, module, name):
        """The item of this name that a module has or re-exports, or None."""
        if name in self.names.get(module, ()):
            return module, name
        passed = '\n'.join(re.findall(r'^pub use .*$', self.texts.get(module, ''), re.M))
        return self.scope(passed).get(name) if passed else None

    @staticmethod
    def named(text, scope):
        """The items that a text names, and the lemmas that its attributes name."""
        lemmas = re.findall(r'\bcrate::(proofs(?:::\w+)*)::(\w+)', text)
        return ({scope[word] for word in WORDS.findall(text) if word in scope}
                | {(module.replace('::', '.'), name) for module, name in lemmas})

    def rests_on(self, law):
        """The items that a law, `law NAME`, rests on."""
        if law not in self.reached:
            name = law.removeprefix('law ')
            path = os.path.join(self.folder, 'src', 'laws.rt')
            text = read(path) if os.path.exists(path) else ''
            stated = re.search(r'^(?:#\[[^\n]*\n)*pub fn %s\b[^\n]*\n(?:    [^\n]*\n)*' % re.escape(name), text, re.M)
            left = list(self.named(stated[0] if stated else '', self.scope(text)))
            for module in self.texts:
                if module.startswith('proofs.laws.%s.' % name):
                    left += self.named(self.texts[module], self.scope(self.texts[module]))
                    left += [(module, one) for one in self.names[module]]
            self.reached[law] = self.reached_from(left)
        return self.reached[law]

    @functools.cached_property
    def of_functions(self):
        """The items that functions which are no laws rest on."""
        left = []
        for path, text in sources_of(self.crate).items():
            if os.path.basename(path) != 'laws.rt':
                left += self.named(text, self.scope(text))
        for module, text in self.texts.items():
            if re.fullmatch(r'proofs\.(?!laws\.).*\.(Answers|Invariants|Proof)', module):
                left += self.named(text, self.scope(text))
                left += [(module, one) for one in self.names[module]]
        return self.reached_from(left)

    def reached_from(self, left):
        """These items, and those that they name, directly or not."""
        found, left = set(), list(left)
        while left:
            item = left.pop()
            if item not in found:
                found.add(item)
                left += self.used.get(item, ())
        return found

    def changed(self, stanza):
        """The definitions that a stanza changes: none if it changes functions too."""
        found = set()
        for file, old, _, _ in stanza.changes:
            module = file.removesuffix('.antt').replace('/', '.')
            text = self.texts.get(module, '') if file.startswith('specs/') else ''
            place = text.find(old)
            names = {(module, name) for name, start, end in items_of(text) if start < place + len(old) and place < end}
            if not names and not old.startswith('use '):
                return set()
            found |= names
        return found
